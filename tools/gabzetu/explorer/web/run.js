// The page of a run: its events as rows, the filters, and the tabs at the side.

const started = performance.now();
const lines = data.text.split('\n').filter(Boolean);
const nodeNames = data.nodes.map(([name]) => name);
const OUTSIDE = data.nodes.length; // the lane of whoever forges and injects
const byEui = new Map(data.nodes.map(([name, , eui]) => [eui, name]));
const byShort = new Map(data.nodes.map(([name, , , short]) => [short, name]));
const nameOfEui = (eui) => byEui.get(eui) || eui;
const events = data.events.map(([number, node, boxes, frames, delivered, words, fold, refusal]) => ({
  number, node, boxes, frames, delivered, words: data.texts[words], fold, refusal: data.texts[refusal],
}));
const frames = data.frames.map(readFrame);
const eventPlaces = new Map(events.map((it, i) => [it.number, i]));
const groups = new Map(); // for each event its first line and the line after its last one

/** Returns a frame of the data with its texts. */
function readFrame([number, event, sender, kind, words, counters, destination, unjudged, verdicts, sections]) {
  return {
    number, event, sender, kind, destination, sections,
    words: data.texts[words],
    counters: data.texts[counters],
    unjudged: data.texts[unjudged],
    verdicts: verdicts.map(([at, node, text, isGood]) => ({ at, node, text: data.texts[text], isGood })),
  };
}

/** Reads which lines are of which event. */
function readGroups() {
  lines.forEach((line, i) => {
    const number = Number(line.slice(0, line.indexOf(' ')));
    const group = groups.get(number);
    if (group) group.after = i + 1; else groups.set(number, { first: i, after: i + 1 });
  });
}

/** Returns the lines of an event, without its number. */
function linesOf(number) {
  const group = groups.get(number);
  const mine = group ? lines.slice(group.first, group.after) : [];
  return mine.filter((it) => it.startsWith(`${number} `)).map((it) => it.slice(it.indexOf(' ') + 1));
}

readGroups();
const states = new States(lines.filter((line) => !line.startsWith('end ')));
let keys = null;
let chosen = null; // the event that is shown at the side
let unfolded = new Set(); // the first events of folds that the user opened
let shown = []; // the rows: {events} as places, {isFolded}

/** Returns the keys of the run, read once. */
function allKeys() {
  if (!keys) keys = new Keys(lines, data.nodes);
  return keys;
}

// What is shown

/** Returns the lanes to which the arrows of a frame go: those that judged it, else its destination. */
function targetsOf(frame) {
  const judged = [...new Set(frame.verdicts.map((it) => it.node))].filter((it) => it >= 0 && it !== frame.sender);
  return judged.length ? judged : [frame.destination].filter((it) => it >= 0 && it !== frame.sender);
}

function isLost(frame) {
  return frame.verdicts.length === 0;
}

function kindsOf(event) {
  return event.boxes.map((it) => data.boxes[it][0]);
}

const KINDS = {
  keys: (event) => kindsOf(event).includes('keys'),
  refusal: (event) => kindsOf(event).includes('refusal'),
  frames: (event) => event.frames.length > 0,
  lost: (event) => event.frames.some((it) => isLost(frames[it])),
  power: (event) => kindsOf(event).some((it) => it === 'stop' || it === 'boot'),
  outside: (event) => event.frames.some((it) => frames[it].sender < 0),
};

function hasNode(event, node) {
  const isOf = (frame) => frame.sender === node || targetsOf(frame).includes(node);
  return event.node === node || event.frames.some((it) => isOf(frames[it]));
}

function hasFrame(event, number) {
  const isSent = event.frames.some((it) => frames[it].number === number);
  return isSent || (event.delivered >= 0 && frames[event.delivered].number === number);
}

/** Says whether an event has a text in its lines, its words or those of its frames, in either case. */
function hasText(event, text) {
  const words = event.frames.map((it) => `${frames[it].number} ${frames[it].words} ${frames[it].unjudged}`);
  return [...linesOf(event.number), event.words, ...words].join('\n').toLowerCase().includes(text);
}

function passes(event) {
  const text = filters.text.value.trim().toLowerCase();
  return (filters.node.value === '' || hasNode(event, Number(filters.node.value)))
    && (filters.kind.value === '' || KINDS[filters.kind.value](event))
    && (filters.frame.value.trim() === '' || hasFrame(event, Number(filters.frame.value)))
    && (filters.key.value === '' || linesOf(event.number).some((it) => it.includes(filters.key.value)))
    && (text === '' || hasText(event, text));
}

/** Puts equal refusals in a row into one row, unless the user opened it or it has the chosen event. */
function foldRows(places) {
  const rows = [];
  for (const i of places) {
    const last = rows[rows.length - 1];
    const isSame = last && events[i].fold >= 0 && last.fold === events[i].fold && filters.fold.checked;
    if (isSame) last.events.push(i); else rows.push({ fold: events[i].fold, events: [i] });
  }
  return rows.flatMap((row) => {
    const hasChosen = row.events.some((i) => events[i].number === chosen);
    const isOpen = row.events.length < 2 || unfolded.has(row.events[0]) || hasChosen;
    return isOpen ? row.events.map((i) => ({ events: [i], isFolded: false })) : [{ ...row, isFolded: true }];
  });
}

/** Returns the lanes that have to do with some rows, in the order of the nodes. */
function lanesOf(places) {
  const used = new Set();
  for (const i of places) {
    if (events[i].boxes.length) used.add(events[i].node);
    for (const frame of events[i].frames.map((it) => frames[it])) {
      used.add(frame.sender < 0 ? OUTSIDE : frame.sender);
      for (const it of targetsOf(frame)) used.add(it);
    }
  }
  used.delete(-1);
  return used.size ? [...used].sort((a, b) => a - b) : nodeNames.map((_, i) => i);
}

function headOf(node) {
  if (node === OUTSIDE) return { name: 'outside', more: 'forged, injected', title: 'nobody\'s', act: () => {} };
  const [name, role, eui, short] = data.nodes[node];
  const act = () => { filters.node.value = filters.node.value === String(node) ? '' : String(node); draw(); };
  const title = `${name}: ${role} ${short}, ${eui}. Click to see only what has to do with it.`;
  return { name, more: `${role} ${short}`, title, act };
}

/** Returns how many events of a folded row are of each node. */
function countNodes(row) {
  const counts = new Map();
  for (const i of row.events) counts.set(events[i].node, (counts.get(events[i].node) || 0) + 1);
  return [...counts].filter(([node]) => node >= 0);
}

const broken = new Map();

/** Breaks a text into lines for a width, once. */
function broke(text, width) {
  const name = `${width} ${text}`;
  if (!broken.has(name)) broken.set(name, breakText(text, width));
  return broken.get(name);
}

function foldedRow(row, lane, width) {
  const [first, last] = [events[row.events[0]].number, events[row.events[row.events.length - 1]].number];
  const text = data.texts[row.fold];
  const boxes = countNodes(row).map(([node, count]) => (
    { lane: lane.get(node), kind: 'refusal', lines: broke(`${count} x ${text}`, width) }));
  return {
    mark: `${first}-${last}`, note: `${row.events.length} refusals`, target: `e${first}`, isFlat: true, tone: 'bad',
    outcome: `${row.events.length} x ${data.texts[row.fold]}`, boxes, frames: [],
  };
}

function arrowsOf(frame, lane) {
  return targetsOf(frame).map((node) => {
    const mine = frame.verdicts.filter((it) => it.node === node);
    const tone = mine.some((it) => it.isGood) ? 'good' : mine.length ? 'bad' : 'lost';
    const fate = mine.map((it) => it.text).join(', ') || frame.unjudged;
    return { to: lane.get(node), fate, tone, isLost: !mine.length };
  });
}

function frameRow(frame, lane) {
  const arrows = arrowsOf(frame, lane);
  const tone = ['good', 'bad'].find((name) => arrows.some((it) => it.tone === name)) || 'lost';
  const kind = { send: '', forge: 'forged: ', inject: 'injected: ' }[frame.kind];
  const label = `${frame.number} ${kind}${frame.words}` + (frame.counters ? ` (${frame.counters})` : '')
    + (arrows.length ? '' : ` ${frame.unjudged}`);
  return { from: lane.get(frame.sender < 0 ? OUTSIDE : frame.sender), label, tone, arrows };
}

function eventRow(event, lane, width) {
  const boxes = event.node < 0 ? [] : event.boxes.map((it) => {
    const [kind, texts] = data.boxes[it];
    return { lane: lane.get(event.node), kind, lines: texts.flatMap((text) => broke(data.texts[text], width)) };
  });
  return {
    mark: String(event.number), note: event.words, target: `e${event.number}`, boxes,
    outcome: outcomeOf(event), tone: toneOfOutcome(event),
    frames: event.frames.map((it) => frameRow(frames[it], lane)),
  };
}

/** Returns an event in one line: what its node did, and what it sent. */
function outcomeOf(event) {
  const deeds = event.boxes.flatMap((it) => data.boxes[it][1].map((text) => data.texts[text]));
  const sent = event.frames.map((it) => `sends ${frames[it].number} ${frames[it].words}`);
  return `${event.node < 0 ? '' : nodeNames[event.node]} ${[...deeds, ...sent].join('; ')}`;
}

function toneOfOutcome(event) {
  if (kindsOf(event).some((it) => it === 'refusal' || it === 'stop')) return 'bad';
  return KINDS.lost(event) ? 'lost' : 'plain';
}

/** Returns the colour of a row in the strip. */
function toneOf(row) {
  const event = events[row.events[0]];
  if (KINDS.keys(event)) return 'keys-edge';
  if (KINDS.power(event)) return kindsOf(event).includes('boot') ? 'boot-edge' : 'refusal-edge';
  if (KINDS.refusal(event)) return 'refusal-edge';
  return KINDS.lost(event) ? 'lost' : 'plain-edge';
}

/** Shows the events that pass the filters. */
function draw() {
  const places = events.map((_, i) => i).filter((i) => passes(events[i]));
  shown = foldRows(places);
  const used = lanesOf(places);
  const lane = new Map(used.map((node, i) => [node, i]));
  lanes.set(used.map(headOf), shown.length, (i, width) => (
    shown[i].isFolded ? foldedRow(shown[i], lane, width) : eventRow(events[shown[i].events[0]], lane, width)));
  place('count').textContent = `${places.length} of ${events.length} events`;
  strip.set(shown.map(toneOf));
  lanes.mark(chosen === null ? '' : `e${chosen}`, rowOf(chosen));
}

/** Returns the place of the row that has an event, or -1. */
function rowOf(number) {
  const i = eventPlaces.get(number);
  return i === undefined ? -1 : shown.findIndex((row) => row.events.includes(i));
}

// The side

function describeVerdict(verdict) {
  return makeLink(`${verdict.node < 0 ? '-' : nodeNames[verdict.node]}: ${verdict.text}`, `e${verdict.at}`);
}

function makeFrame(frame) {
  const fates = frame.verdicts.length ? frame.verdicts.map(describeVerdict) : [frame.unjudged];
  const sender = frame.sender < 0 ? 'outside' : nodeNames[frame.sender];
  const nameOf = (digits) => (digits.length === 16 ? byEui.get(digits) : byShort.get(digits)) || '';
  return [make('h2', '', `Frame ${frame.number}: ${frame.words}`),
    make('p', '', `sent by ${sender} at `, makeLink(`event ${frame.event}`, `e${frame.event}`)),
    make('ul', '', ...fates.map((it) => make('li', '', it))),
    ...makeSections(frame.sections, nameOf)];
}

function makeEvent(event) {
  const elements = [make('h2', '', `Event ${event.number}${event.node < 0 ? '' : ` of ${nodeNames[event.node]}`}`)];
  if (event.words) elements.push(make('p', 'digits', event.words));
  if (event.refusal) elements.push(make('p', 'bad', `Refused as ${event.refusal}`));
  elements.push(make('h3', '', 'Its lines'), make('pre', 'digits', linesOf(event.number).join('\n') || 'none'));
  if (event.delivered >= 0) elements.push(make('h3', '', 'It delivers'), ...makeFrame(frames[event.delivered]));
  const sent = event.frames.flatMap((it) => makeFrame(frames[it]));
  if (sent.length) elements.push(make('h3', '', 'It sends'), ...sent);
  return elements;
}

function makeHint() {
  return [make('h2', '', 'How to read this page'),
    make('p', '', 'Lanes are nodes, rows are events. Click a row to see its lines and frames, and what each '
      + 'node holds after it.'),
    make('ul', '', make('li', 'tone-good', 'green: a frame that somebody accepted'),
      make('li', 'tone-bad', 'red: a refusal'),
      make('li', 'tone-lost', 'grey and dashed: a frame that nobody got'),
      make('li', '', 'yellow boxes: changes of keys; blue boxes: boots')),
    make('p', '', 'j and k, or the arrows in the list, go to the next and the previous row, / to the field for text. '
      + '#e12 in the address is event 12.'),
    ...(data.hasSchedule ? [] : [make('p', 'quiet', 'Without the schedule that was played, the page doesn\'t show of '
      + 'which frame a refusal at NWK is. '
      + 'Make the page with --schedule to see it.')])];
}

function makeNodeState(i, after, before, isOpen) {
  const [rows, old] = [describeNode(after, nameOfEui), before ? describeNode(before, nameOfEui) : []];
  const [name, role, eui, short] = data.nodes[i];
  const words = `${role} ${short} ${eui}${isChanged(rows, old) ? ', changed' : ''}`;
  const summary = make('summary', '', `${name} `, make('span', 'quiet', words));
  const details = make('details', '', summary);
  details.open = isOpen || isChanged(rows, old);
  const fill = () => {
    if (details.open && details.children.length === 1) details.append(...makeStateTables(rows, old));
  };
  details.addEventListener('toggle', fill);
  fill();
  return details;
}

/** Returns the lines of an event as places; of one without lines, the place after those of the events before it. */
function groupOf(number) {
  if (groups.has(number)) return groups.get(number);
  const earlier = events.slice(0, eventPlaces.get(number)).reverse().find((it) => groups.has(it.number));
  const { after } = groups.get(earlier ? earlier.number : 0) || { after: 0 };
  return { first: after, after };
}

/** Returns what each node holds after the chosen event, or at the start. */
function makeStates() {
  const group = groupOf(chosen === null ? 0 : chosen);
  const before = structuredClone(states.after(chosen === null ? group.after : group.first));
  const after = states.after(group.after);
  const { node } = events[eventPlaces.get(chosen)] || { node: -1 };
  const isFew = data.nodes.length < 4;
  const elements = data.nodes.flatMap(([name], i) => (
    after.has(name) ? [makeNodeState(i, after.get(name), before.get(name), isFew || i === node)] : []));
  const title = chosen === null ? 'At the start' : `After event ${chosen}`;
  const hint = 'Marked cells are what this event changed. Struck rows are dropped.';
  return [make('h2', '', title), make('p', 'quiet', hint), ...elements];
}

function filterKey(digits) {
  filters.key.value = filters.key.value === digits ? '' : digits;
  draw();
}

function makeKeys() {
  const rows = [...allKeys().keys.values()].map((key) => makeKeyRow(key, filterKey));
  return [make('h2', '', 'Keys'), make('p', 'quiet',
    'Click a key to see only the events that have to do with it. Outside are removed devices, '
    + 'what they held, and what these keys open.'), makeTable(['key', 'kind', 'first seen', 'held by, from-to',
      'seals', 'known outside'], rows)];
}

function makeCounters() {
  const series = [...allKeys().series.values()].sort((a, b) => b.again.length - a.again.length);
  return [make('h2', '', 'Counters'), make('p', 'quiet',
    'A dot is a seal: its event from left to right, its counter from bottom to top. '
    + 'Forged ones are yellow. A nonce that comes again would be red.'),
    ...series.slice(0, 150).flatMap((it) => makeSeries(it, nameOfEui, events.length ? events[events.length - 1].number
      : 1)),
    ...(series.length > 150 ? [make('p', 'quiet', `${series.length - 150} more are not drawn`)] : [])];
}

function showEvent() {
  const event = events[eventPlaces.get(chosen)];
  return event ? makeEvent(event) : makeHint();
}

// The bar, the keyboard and the address

function fillBar() {
  const [words, isGood, meaning, line] = data.verdict;
  const number = line ? Number((lines[line - 1] || '0').split(' ')[0]) || 0 : 0;
  const verdict = make('span', isGood === null ? 'quiet' : isGood ? 'good' : 'bad', isGood === null ? ''
    : `tc audit: ${words}: `, meaning);
  place('about').append(make('h1', '', data.title), make('span', '', data.end), verdict, ...(number
    ? [makeLink(`event ${number}`, `e${number}`)] : []),
    make('span', 'digest', `sha256 ${data.digest}`), makeButton('save the transcript', () =>
      saveFile(data.title, data.text)));
}

function makeFilters() {
  const filter = {};
  filter.node = addChoice('node', [['', 'all'], ...nodeNames.map((name, i) => [String(i), name])], draw);
  filter.kind = addChoice('show', [['', 'everything'], ['keys', 'changes of keys'], ['refusal', 'refusals'],
    ['frames', 'frames'],
    ['lost', 'lost frames'], ['power', 'stops and boots'], ['outside', 'forged and injected']], draw);
  filter.frame = addField('frame', 'number', 6, draw);
  const found = [...allKeys().keys.keys()];
  filter.key = addChoice('key', [['', 'all'], ...found.map((it) => [it, shortKey(it)])], draw);
  filter.text = addField('text', 'word, address, digits (/)', 20, draw);
  filter.fold = addTick('fold equal refusals', true, () => { unfolded = new Set(); draw(); });
  place('filters').append(make('span', 'quiet'), makeButton('show all', clearFilters));
  place('filters').querySelector('span').id = 'count';
  place('count').setAttribute('role', 'status');
  return filter;
}

function clearFilters() {
  for (const it of ['node', 'kind', 'frame', 'key', 'text']) filters[it].value = '';
  draw();
}

/**
 * Shows what the address names: an event, a tab, or both, as in #e12-state. Filters that hide the event are
 * cleared.
 */
function readAddress() {
  const found = /^#(?:e(\d+))?-?([a-z]*)$/.exec(location.hash) || [];
  const number = Number(found[1]);
  const tab = Object.keys(tabs.fill).find((it) => it.toLowerCase() === found[2]);
  if (found[1] && eventPlaces.has(number)) {
    chosen = number;
    if (rowOf(chosen) < 0) clearFilters();
    else if (shown[rowOf(chosen)].isFolded) draw();
    else lanes.mark(`e${chosen}`, rowOf(chosen));
  }
  tabs.show(tab || 'Event');
}

/** Returns the address of an event with a tab. */
function addressOf(number, tab) {
  const event = number === null ? '' : `e${number}`;
  return tab === 'Event' ? event : [event, tab.toLowerCase()].filter(Boolean).join('-');
}

/** Goes to an event, with the same tab where it has to do with events. */
function choose(target) {
  const number = Number(target.slice(1));
  const row = shown[rowOf(number)];
  if (row && row.isFolded) {
    unfolded.add(row.events[0]);
    draw();
  }
  location.hash = addressOf(number, tabs.name === 'State' ? 'State' : 'Event');
}

function chooseTab(name) {
  location.replace(`#${addressOf(chosen, name)}`);
  tabs.show(name);
}

/** Goes some rows on from the chosen one. */
function step(count) {
  const i = rowOf(chosen);
  const next = i < 0 ? 0 : Math.min(shown.length - 1, Math.max(0, i + count));
  if (!shown[next]) return;
  const { number } = events[shown[next].events[0]];
  location.replace(`#${addressOf(number, tabs.name === 'State' ? 'State' : 'Event')}`);
}

const tabs = new Tabs({ Event: showEvent, State: makeStates, Keys: makeKeys, Counters: makeCounters }, chooseTab);
const lanes = new Lanes(choose);
const strip = new Strip((i) => { if (shown[i]) lanes.scroller.scrollTop = Math.max(0, lanes.tops[i] - 80); });
lanes.onSeen = (first, last) => strip.see(first, last);
const filters = makeFilters();
fillBar();
draw();
readAddress();
window.addEventListener('hashchange', readAddress);
onRowKeys(step);
onKeys({ j: () => step(1), k: () => step(-1), '/': () => filters.text.focus() });
document.documentElement.dataset.drawn = `${shown.length} rows in ${Math.round(performance.now() - started)} ms`;
