// What each node holds after some lines of a transcript: a fold over the lines, as docs/POLICY.md ("What a node
// keeps") says it.

const GREATEST = 4294967295;
const CHECKPOINT = 4000; // lines from one kept state to the next

/** Returns the state of a node before its first line. */
function newNode(role) {
  return {
    role, state: 'fresh', isUp: true, commits: 0, declared: 0, apsLimit: 0, apsNext: 0, roll: 'idle', active: null,
    nets: [], links: [], pairs: [],
  };
}

function isLink(row, partner, key) {
  return row.partner === partner && row.key === key;
}

/** A link key is new, or live once more, or has another attribute. Whether its partner was told stays as it is. */
function setLink(node, partner, key, attribute) {
  const isTold = node.links.some((it) => it.isLive && it.partner === partner && it.isTold);
  let row = node.links.find((it) => isLink(it, partner, key));
  if (!row) {
    row = { partner, key, isFromCode: false, kept: 0, stored: 0 };
    node.links.push(row);
  }
  Object.assign(row, { attribute, isLive: true, isTold, isFromCode: row.isFromCode || attribute === 'provisional' });
}

function setTold(node, partner, isTold) {
  for (const row of node.links) if (row.isLive && row.partner === partner) row.isTold = isTold;
}

/** A network key that a node holds from the start is active, and a router or device that has one is joined. */
function giveNet(node, key, sequence) {
  if (!node.nets.some((it) => it.key === key)) {
    node.nets.push({ key, sequence, isLive: true, isStarted: true, limit: node.declared, next: node.declared,
      floors: [] });
  }
  node.active = key;
  node.state = node.role === 'centre' ? 'fresh' : 'joined';
}

function declareCounter(node, layer, value) {
  if (layer === 'aps') {
    node.apsLimit = Math.max(node.apsLimit, value);
    node.apsNext = Math.max(node.apsNext, value);
    return;
  }
  node.declared = value;
  for (const row of node.nets.filter((it) => it.isStarted)) {
    row.limit = Math.max(row.limit, value);
    row.next = Math.max(row.next, value);
  }
}

function reserve(node, layer, value) {
  const limit = Math.min(value, GREATEST);
  if (layer === 'aps') node.apsLimit = Math.max(node.apsLimit, limit);
  for (const row of node.nets) {
    if (layer === 'nwk' && row.key === node.active) Object.assign(row, { isStarted: true,
      limit: Math.max(row.limit, limit) });
  }
}

/** Returns the floor that a network row keeps of a sender, which is made where it is missing and wanted. */
function floorOf(row, sender, isWanted) {
  let floor = row.floors.find((it) => it.sender === sender);
  if (!floor && isWanted) {
    floor = { sender, kept: 0, stored: 0 };
    row.floors.push(floor);
    row.floors.sort((a, b) => (a.sender < b.sender ? -1 : 1));
  }
  return floor;
}

function storeFloor(node, layer, key, sender, value) {
  if (layer === 'aps') {
    for (const row of node.links.filter((it) => isLink(it, sender, key))) row.stored = Math.max(row.stored, value);
    return;
  }
  for (const row of node.nets.filter((it) => it.key === key)) {
    const floor = floorOf(row, sender, true);
    floor.stored = Math.max(floor.stored, value);
  }
}

function hear(node, layer, key, sender, counter) {
  if (layer === 'aps') {
    for (const row of node.links.filter((it) => isLink(it, sender, key))) row.kept = counter + 1;
    return;
  }
  for (const row of node.nets.filter((it) => it.key === key)) {
    const floor = floorOf(row, sender, false);
    if (floor) floor.kept = counter + 1;
  }
}

function seal(node, layer, key, counter) {
  if (layer === 'aps') node.apsNext = counter + 1;
  for (const row of node.nets) if (layer === 'nwk' && row.key === key) row.next = counter + 1;
}

function boot(node) {
  node.isUp = true;
  node.apsNext = node.apsLimit;
  for (const row of node.nets) {
    row.next = row.limit;
    for (const floor of row.floors) floor.kept = floor.stored;
  }
  for (const row of node.links) row.kept = row.stored;
}

function addPair(node, first, second, key) {
  if (!node.pairs.some((it) => it.first === first && it.second === second)) node.pairs.push({ first, second, key });
}

function startRoll(node, roll) {
  node.roll = roll;
  if (roll === 'sending') for (const row of node.links) row.isTold = false;
}

function dropRow(node, kind, partner, key) {
  if (kind === 'net') for (const row of node.nets) if (row.key === partner) row.isLive = false;
  if (kind === 'link') {
    for (const row of node.links) if (isLink(row, partner, key)) Object.assign(row, { isLive: false, isTold: false });
  }
}

function startKey(node, key, value) {
  const first = Math.min(value, GREATEST);
  for (const row of node.nets.filter((it) => it.key === key)) {
    Object.assign(row, { isStarted: true, limit: Math.max(row.limit, first), next: Math.max(row.next, first) });
  }
}

function installKey(node, key, sequence) {
  if (node.nets.some((it) => it.key === key)) return;
  node.nets.push({ key, sequence, isLive: true, isStarted: false, limit: 0, next: 0, floors: [] });
}

// What each kind of line does to its node. The words are those after the node's name.
const EFFECTS = {
  given: (node, [kind, a, b]) => (kind === 'net' ? giveNet(node, a, Number(b)) : setLink(node, a, b, 'provisional')),
  counter: (node, [layer, value]) => declareCounter(node, layer, Number(value)),
  reserve: (node, [layer, limit]) => reserve(node, layer, Number(limit)),
  floor: (node, [layer, key, sender, value]) => storeFloor(node, layer, key, sender, Number(value)),
  drop: (node, [kind, a, b]) => dropRow(node, kind, a, b),
  install: (node, [key, sequence]) => installKey(node, key, Number(sequence)),
  active: (node, [key]) => { node.active = key; },
  start: (node, [key, value]) => startKey(node, key, Number(value)),
  row: (node, [partner, key, attribute]) => setLink(node, partner, key, attribute),
  pair: (node, [first, second, key]) => addPair(node, first, second, key),
  state: (node, [state]) => { node.state = state; },
  roll: (node, [roll]) => startRoll(node, roll),
  commit: (node) => { node.commits += 1; },
  accept: (node, [layer, , key, sender, counter]) => hear(node, layer, key, sender, Number(counter)),
  seal: (node, [layer, , key, , counter]) => seal(node, layer, key, Number(counter)),
  stopped: (node) => { node.isUp = false; },
  down: (node) => { node.isUp = false; },
  boot,
};

// What the lines do that name no node but the device that the centre speaks of.
const EFFECTS_AT_THE_CENTRE = {
  live: (node, device) => setTold(node, device, false),
  told: (node, device) => setTold(node, device, true),
  untold: (node, device) => setTold(node, device, false),
  removed: (node, device) => { node.pairs = node.pairs.filter((it) => it.first !== device && it.second !== device); },
};

/** Changes the states of all nodes, which are a map by name, by one line. */
function applyLine(states, line) {
  const [, kind, name, ...words] = line.split(' ');
  if (kind === 'node' && !states.has(name)) states.set(name, newNode(words[0]));
  if (EFFECTS_AT_THE_CENTRE[kind]) {
    const centre = [...states.values()].find((it) => it.role === 'centre');
    if (centre) EFFECTS_AT_THE_CENTRE[kind](centre, name);
  } else if (Object.hasOwn(EFFECTS, kind) && states.has(name)) {
    EFFECTS[kind](states.get(name), words);
  }
}

/** The states after any number of lines. Some are kept, so that none is far from a kept one. */
class States {
  constructor(lines) {
    this.lines = lines;
    this.kept = [new Map()];
    this.states = new Map();
    this.count = 0;
  }

  /** Returns the states after the first lines. They are good until the next call. */
  after(count) {
    if (count < this.count || Math.floor(count / CHECKPOINT) > Math.floor(this.count / CHECKPOINT)) this.goBack(count);
    for (; this.count < count; this.count += 1) {
      if (this.count % CHECKPOINT === 0) this.kept[this.count / CHECKPOINT] = structuredClone(this.states);
      applyLine(this.states, this.lines[this.count]);
    }
    return this.states;
  }

  /** Begins anew at the last state that is kept before a number of lines, unless the present one is nearer. */
  goBack(count) {
    const last = Math.min(this.kept.length - 1, Math.floor(count / CHECKPOINT));
    if (count >= this.count && this.count >= last * CHECKPOINT) return;
    this.states = structuredClone(this.kept[last]);
    this.count = last * CHECKPOINT;
  }
}

/** Returns the rows of the tables of a node: each {table, name, cells}. */
function describeNode(node, nameOf) {
  const rows = [{ table: 'node', name: 'state', cells: describeHead(node) }];
  for (const it of node.nets) rows.push({ table: 'nets', name: it.key, isGone: !it.isLive, cells: describeNet(node,
    it) });
  for (const it of node.nets.filter((row) => row.isLive)) {
    for (const floor of it.floors) {
      rows.push({ table: 'floors', name: `${it.key} ${floor.sender}`, cells: [shortKey(it.key), nameOf(floor.sender),
        floor.kept, floor.stored] });
    }
  }
  for (const it of node.links) rows.push({ table: 'links', name: `${it.partner} ${it.key}`, isGone: !it.isLive,
    cells: describeLink(it, nameOf) });
  for (const it of node.pairs) rows.push({ table: 'pairs', name: it.key, cells: [nameOf(it.first), nameOf(it.second),
    shortKey(it.key)] });
  return rows;
}

function describeHead(node) {
  const state = node.role === 'centre' ? (node.roll === 'sending' ? 'sending a new key' : 'no rollover') : node.state;
  return [state, node.isUp ? 'up' : 'down', node.apsNext, node.apsLimit, node.commits];
}

function describeNet(node, row) {
  const words = [row.isLive ? 'live' : 'dropped', row.key === node.active && 'active', !row.isStarted
    && 'not started'];
  return [shortKey(row.key), row.sequence, words.filter(Boolean).join(', '), row.next, row.limit];
}

function describeLink(row, nameOf) {
  const words = [row.isLive ? row.attribute : 'dropped', row.isFromCode && 'from a code', row.isTold && 'told'];
  return [nameOf(row.partner), shortKey(row.key), words.filter(Boolean).join(', '), row.kept, row.stored];
}

const STATE_TABLES = [
  ['node', 'Node', ['state', 'power', 'next APS counter', 'APS limit', 'commits']],
  ['nets', 'Network keys', ['key', 'sequence', 'row', 'next counter', 'limit']],
  ['floors', 'Floors of the live network keys', ['key', 'sender', 'in memory', 'stored']],
  ['links', 'Link keys', ['partner', 'key', 'attribute', 'floor in memory', 'stored']],
  ['pairs', 'Keys of pairs', ['first', 'second', 'key']],
];

/** Returns a row of a table; cells that differ from those before the event are marked. */
function makeStateRow(row, before) {
  const cells = row.cells.map((text, i) => make('td', !before || String(before.cells[i]) !== String(text) ? 'changed'
    : '', text));
  return makeRow(cells, row.isGone ? 'gone' : '');
}

/** Returns the tables of a node after an event. `rows` and `before` are its rows after and before the event. */
function makeStateTables(rows, before) {
  const old = new Map(before.map((it) => [`${it.table} ${it.name}`, it]));
  return STATE_TABLES.flatMap(([table, title, heads]) => {
    const mine = rows.filter((it) => it.table === table);
    if (!mine.length) return [];
    return [...(table === 'node' ? [] : [make('h3', '', title)]),
      makeTable(heads, mine.map((it) => makeStateRow(it, old.get(`${it.table} ${it.name}`))))];
  });
}

/** Says whether an event changed anything of a node. */
function isChanged(rows, before) {
  return JSON.stringify(rows) !== JSON.stringify(before);
}
