// The page of a report: its packets as rows between short addresses, what opened them, and where each key came from.

const started = performance.now();
const TONES = 8;
const frames = data.frames.map(([number, time, from, to, words, layers, sections], i) => ({
  i, number, time, from, to, words: data.texts[words], sections,
  layers: layers.map(([kind, key, text]) => ({ kind, key, text: data.texts[text] })),
}));
const keys = data.keys.map(([number, digits, frame, round, opened]) => ({ number, digits, frame, round, opened }));
const places = new Map(frames.map((it) => [it.number, it.i]));
const carriers = new Map(); // for each frame the keys that were found in it
for (const key of keys.filter((it) => it.frame >= 0)) {
  carriers.set(key.frame, [...(carriers.get(key.frame) || []), key]);
}
const start = frames.length ? frames[0].time : null;
let chosen = null;
let shown = [];

/** Returns the reason why a frame isn't open all the way, or nothing. */
function causeOf(frame) {
  const closed = frame.layers.find((it) => !it.key && it.text !== 'not-secured');
  return closed ? `${closed.kind} ${closed.text}` : '';
}

/** Returns the colour of a frame: that of the key that opened its outermost sealed layer. */
function toneOf(frame) {
  const opened = frame.layers.find((it) => it.key);
  return opened ? `k${opened.key % TONES}` : causeOf(frame) ? 'lost' : 'plain';
}

function stripTone(frame) {
  if (carriers.has(frame.i)) return 'keys-edge';
  return causeOf(frame).endsWith('malformed') ? 'refusal-edge' : causeOf(frame) ? 'lost' : 'plain-edge';
}

const KINDS = {
  open: (frame) => !causeOf(frame),
  closed: (frame) => causeOf(frame) !== '',
  keys: (frame) => carriers.has(frame.i),
  commands: (frame) => !/^(data|ack|closed|sealed|\d)/.test(frame.words),
};

function digitsOfFrame(frame) {
  return frame.sections.map(([, , bytes]) => bytes).join(' ');
}

function passes(frame) {
  const text = filters.text.value.trim().toLowerCase();
  const layers = frame.layers.map((it) => it.text);
  const all = () => [frame.number, frame.words, ...layers, digitsOfFrame(frame)].join(' ').toLowerCase();
  return (filters.pan.value === '' || data.lanes[frame.from][0] === filters.pan.value)
    && (filters.node.value === '' || [frame.from, frame.to].includes(Number(filters.node.value)))
    && (filters.kind.value === '' || KINDS[filters.kind.value](frame))
    && (filters.key.value === '' || frame.layers.some((it) => it.key === Number(filters.key.value)))
    && (text === '' || all().includes(text));
}

function headOf(lane) {
  const [pan, short, eui] = data.lanes[lane];
  const act = () => { filters.node.value = filters.node.value === String(lane) ? '' : String(lane); draw(); };
  const title = `${eui} Click to see only what has to do with it.`;
  return { name: short, more: pan ? `PAN ${pan}` : eui, title, act };
}

function noteOf(frame) {
  return frame.time === null ? '' : `${(frame.time - start).toFixed(3)} s`;
}

function rowOfFrame(frame, lane) {
  const found = (carriers.get(frame.i) || []).map((it) => `gives key ${it.number}`).join(', ');
  const opened = frame.layers.filter((it) => it.key).map((it) => `${it.kind} key ${it.key}`).join(', ');
  const fate = [opened, causeOf(frame), found].filter(Boolean).join('; ');
  const to = frame.to >= 0 && frame.to !== frame.from ? lane.get(frame.to) : null;
  const arrow = { to, fate: frame.to === -2 ? 'to all' : '', tone: toneOf(frame), isLost: false };
  const label = `${frame.words}${fate ? ` [${fate}]` : ''}`;
  return {
    mark: String(frame.number), note: noteOf(frame), target: `p${frame.number}`, boxes: [], tone: toneOf(frame),
    outcome: label, frames: [{ from: lane.get(frame.from), label, tone: toneOf(frame), arrows: [arrow] }],
  };
}

/** Shows the packets that pass the filters. */
function draw() {
  shown = frames.filter(passes);
  const used = [...new Set(shown.flatMap((it) => [it.from, it.to]))].filter((it) => it >= 0);
  used.sort((a, b) => (data.lanes[a].slice(0, 2).join(' ') < data.lanes[b].slice(0, 2).join(' ') ? -1 : 1));
  const lane = new Map(used.map((it, i) => [it, i]));
  lanes.set(used.map(headOf), shown.length, (i) => rowOfFrame(shown[i], lane));
  place('count').textContent = `${shown.length} of ${frames.length} packets`;
  strip.set(shown.map(stripTone));
  lanes.mark(chosen === null ? '' : `p${chosen}`, rowOf(chosen));
}

/** Returns the place of the row of a packet, or -1. */
function rowOf(number) {
  return shown.findIndex((it) => it.number === number);
}

function linkTo(i) {
  return makeLink(`packet ${frames[i].number}`, `p${frames[i].number}`);
}

function makeLayer(layer) {
  return make('li', layer.key ? `tone-k${layer.key % TONES}` : 'quiet', `${layer.kind}: ${layer.text}`
    + (data.causes[layer.text] ? `, ${data.causes[layer.text]}` : ''));
}

function makePacket(frame) {
  const name = ([pan, short]) => `${short}${pan ? ` of PAN ${pan}` : ''}`;
  const to = frame.to === -2 ? 'all' : frame.to < 0 ? 'somebody' : name(data.lanes[frame.to]);
  const found = (carriers.get(frame.i) || []).map((it) => (
    make('li', '', `key ${it.number} `, makeKey(it.digits), `, in round ${it.round}`)));
  const time = noteOf(frame) ? ` at ${noteOf(frame)}` : '';
  return [make('h2', '', `Packet ${frame.number}: ${frame.words}`),
    make('p', 'quiet', `from ${name(data.lanes[frame.from])} to ${to}${time}, frame ${frame.i + 1} of the report`),
    make('ul', '', ...frame.layers.map(makeLayer)),
    ...(found.length ? [make('h3', '', 'Found in it'), make('ul', '', ...found)] : []),
    ...makeSections(frame.sections, () => '')];
}

function showPacket() {
  if (chosen !== null) return makePacket(frames[places.get(chosen)]);
  return [make('h2', '', 'How to read this page'),
    make('p', '', 'Lanes are short addresses, rows are packets. The colour of an arrow is that of the key that opened '
      + 'the packet; a grey one stayed closed.'),
    make('p', '', 'j and k, or the arrows in the list, go to the next and the previous packet, / to the field for text. '
      + '#p28 in the address is packet 28.'),
    ...(data.hasCapture ? [] : [make('p', 'quiet', 'The report alone shows no destinations and no packet numbers of '
      + 'the file. Make the page with --capture to see them.')])];
}

/** Returns a key and below it the keys that came out of packets that it opened. */
function makeTree(key) {
  const link = make('a', `tone-k${key.number % TONES}`, `key ${key.number} `, makeKey(key.digits));
  link.href = '#';
  link.addEventListener('click', (event) => {
    event.preventDefault();
    filters.key.value = String(key.number);
    draw();
  });
  const others = key.opened.slice(0, -1).map((it) => `, inside what key ${it} opened`).join('');
  const origin = key.frame < 0 ? [', given'] : [', came out of ', linkTo(key.frame), `${others}, round ${key.round}`];
  const below = keys.filter((it) => it.number !== key.number && parentOf(it) === key.number);
  const count = frames.filter((frame) => frame.layers.some((it) => it.key === key.number)).length;
  return make('li', '', link, ...origin, make('span', 'quiet', `; opened layers in ${count} packets`),
    ...(below.length ? [make('ul', '', ...below.map(makeTree))] : []));
}

/** Returns the key under which another was carried: the innermost of those that opened its packet. */
function parentOf(key) {
  return key.opened.length ? key.opened[key.opened.length - 1] : 0;
}

function showKeys() {
  const roots = keys.filter((it) => !parentOf(it) || parentOf(it) >= it.number);
  return [make('h2', '', 'Keys, and where they came from'), make('ul', '', ...roots.map(makeTree))];
}

function showReport() {
  return [make('h2', '', 'The report'), makeButton('save the report', () => saveFile(data.title, data.text)),
    make('pre', 'digits', data.text.slice(0, 200000))];
}

function fillBar() {
  const closed = frames.filter((it) => causeOf(it)).length;
  place('about').append(make('h1', '', data.title), make('span', '', data.end),
    make('span', closed ? 'bad' : 'good', `${closed} packets stayed closed`),
    make('span', 'digest', `sha256 ${data.digest}`));
}

function makeFilters() {
  const pans = [...new Set(data.lanes.map(([pan]) => pan))].filter(Boolean);
  const filter = {};
  filter.pan = addChoice('PAN', [['', 'all'], ...pans.map((it) => [it, it])], draw);
  const nodes = data.lanes.map(([pan, short], i) => [String(i), `${pan} ${short}`]);
  const opened = keys.map((it) => [String(it.number), `key ${it.number} ${shortKey(it.digits)}`]);
  filter.node = addChoice('node', [['', 'all'], ...nodes], draw);
  filter.kind = addChoice('show', [['', 'everything'], ['open', 'open packets'], ['closed', 'closed packets'],
    ['keys', 'packets that give keys'],
    ['commands', 'commands']], draw);
  filter.key = addChoice('opened by', [['', 'all'], ...opened], draw);
  filter.text = addField('text', 'word, address, digits (/)', 20, draw);
  const count = make('span', 'quiet');
  count.id = 'count';
  count.setAttribute('role', 'status');
  place('filters').append(count, makeButton('show all', clearFilters));
  return filter;
}

function clearFilters() {
  for (const it of Object.values(filters)) it.value = '';
  draw();
}

/** Shows what the address names: a packet or a tab, as in #p28 or #keys. Filters that hide the packet are cleared. */
function readAddress() {
  const found = /^#(?:p(\d+)|([a-z]+))$/.exec(location.hash) || [];
  if (found[1] && places.has(Number(found[1]))) {
    chosen = Number(found[1]);
    if (rowOf(chosen) < 0) clearFilters();
    lanes.mark(`p${chosen}`, rowOf(chosen));
  }
  tabs.show(Object.keys(tabs.fill).find((it) => it.toLowerCase() === found[2]) || 'Packet');
}

function choose(target) {
  location.hash = target;
}

function chooseTab(name) {
  location.replace(`#${name === 'Packet' && chosen !== null ? `p${chosen}` : name.toLowerCase()}`);
  tabs.show(name);
}

/** Goes some rows on from the chosen one. */
function step(count) {
  const i = rowOf(chosen);
  const next = i < 0 ? 0 : Math.min(shown.length - 1, Math.max(0, i + count));
  if (shown[next]) location.replace(`#p${shown[next].number}`);
}

const tabs = new Tabs({ Packet: showPacket, Keys: showKeys, Report: showReport }, chooseTab);
const lanes = new Lanes(choose);
const strip = new Strip((i) => { if (shown[i]) lanes.scroller.scrollTop = Math.max(0, lanes.tops[i] - 80); });
lanes.onSeen = (first, last) => strip.see(first, last);
const filters = makeFilters();
fillBar();
draw();
readAddress();
window.addEventListener('hashchange', readAddress);
onRowKeys(step);
onKeys({ j: () => step(1), k: () => step(-1), '/': () => filters.text.focus() });
document.documentElement.dataset.drawn = `${shown.length} rows in ${Math.round(performance.now() - started)} ms`;
