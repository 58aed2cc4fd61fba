// The keys of a run and the counters under them, read from the lines: where each key came from, who held it, who
// learned it.

const ABOUT_KEYS = /^\d+ (?:draw|given|install|row|pair|drop|removed|seal|forge) /;
const WELL_KNOWN = '5A6967426565416C6C69616E63653039';

/** Returns the key that a term carries, or none: it is that of a Transport-Key, alone or in clear in a NWK frame. */
function carriedKey(layer, header, content) {
  let command = content;
  if (layer === 'nwk') {
    const control = parseInt(content.slice(0, 2), 16);
    const isCommand = (control & 0x23) === 1 && (parseInt(header.slice(0, 2), 16) & 3) === 0;
    command = isCommand ? content.slice(control & 0x80 ? 6 : 4) : '';
  } else if ((parseInt(header.slice(0, 2), 16) & 3) !== 1) {
    command = '';
  }
  return command.startsWith('05') && command.length >= 36 ? command.slice(4, 36) : null;
}

/** All keys of a run by their digits: kind, from, event, holders [{node, from, to}], seals, carriedBy, outside. */
class Keys {
  constructor(lines, nodes) {
    this.keys = new Map();
    this.series = new Map();
    this.carriers = [];
    this.removed = new Map();
    this.partners = new Set(); // keys with the devices for which the centre has them
    this.eui = new Map(nodes.map(([name, , eui]) => [name, eui]));
    this.names = new Map(nodes.map(([name, , eui]) => [eui, name]));
    this.centre = (nodes.find(([, role]) => role === 'centre') || [''])[0];
    for (const line of lines) if (ABOUT_KEYS.test(line)) this.read(line.split(' '));
    this.spread();
  }

  key(digits, event, kind, from) {
    if (!this.keys.has(digits)) {
      this.keys.set(digits, { digits, event, kind: '', from, holders: [], seals: 0, carriedBy: [], outside: '' });
    }
    const key = this.keys.get(digits);
    if (kind) key.kind = key.kind || kind;
    return key;
  }

  hold(key, node, event) {
    const isHeld = key.holders.some((it) => it.node === node && it.to === null);
    if (!isHeld) key.holders.push({ node, from: event, to: null });
  }

  release(digits, node, event) {
    const key = this.keys.get(digits);
    const holder = key && key.holders.find((it) => it.node === node && it.to === null);
    if (holder) holder.to = event;
  }

  read([number, kind, ...words]) {
    const event = Number(number);
    if (kind === 'draw') this.key(words[0], event, '', 'drawn by the centre');
    if (kind === 'given') this.readGiven(event, words);
    if (kind === 'install') this.hold(this.key(words[1], event, 'network key', 'taken in'), words[0], event);
    if (kind === 'row') this.readRow(event, words);
    if (kind === 'pair') this.readPair(event, words);
    if (kind === 'drop') this.release(words[words.length - 1], words[0], event);
    if (kind === 'removed') this.removed.set(words[0], event);
    if (kind === 'seal') this.readTerm(event, words.slice(1), false);
    if (kind === 'forge') this.readTerm(event, words, true);
  }

  readGiven(event, [node, row, ...words]) {
    const [kind, from] = row === 'net' ? ['network key', 'held by a node'] : ['link key', 'an install code'];
    this.hold(this.key(row === 'net' ? words[0] : words[1], event, kind, from), node, event);
  }

  readPair(event, [node, first, second, digits]) {
    this.hold(this.key(digits, event, 'application key', 'drawn by the centre'), node, event);
    this.partners.add(`${digits} ${first}`).add(`${digits} ${second}`);
  }

  readRow(event, [node, partner, digits]) {
    if (node === this.centre) this.partners.add(`${digits} ${partner}`);
    const isWithCentre = node === this.centre || this.names.get(partner) === this.centre;
    this.hold(this.key(digits, event, isWithCentre ? 'link key' : 'application key', 'taken in'), node, event);
  }

  readTerm(event, [layer, label, base, source, counter, control, header, content], isForged) {
    const kind = label === 'network' ? 'network key' : '';
    const key = this.key(base, event, kind, isForged ? 'used from outside' : 'in a seal');
    if (!isForged) key.seals += 1;
    const name = [base, label, source].join(' ');
    if (!this.series.has(name)) {
      this.series.set(name, { layer, label, base, source, points: [], used: new Set(), again: [] });
    }
    const series = this.series.get(name);
    const nonce = `${counter} ${control}`;
    const isAgain = !isForged && series.used.has(nonce);
    if (isAgain) series.again.push(event);
    if (!isForged) series.used.add(nonce);
    series.points.push({ event, counter: Number(counter), isForged, isAgain });
    const carried = carriedKey(layer, header, content);
    if (carried) {
      this.carriers.push({ event, base, carried });
      const { carriedBy } = this.key(carried, event, '', 'carried by a frame');
      if (!carriedBy.some((it) => it.base === base)) carriedBy.push({ event, base });
    }
  }

  /** Notes which keys are known outside: those of removed devices, the well-known one, and what they open. */
  spread() {
    for (const key of this.keys.values()) {
      if (key.digits === WELL_KNOWN) key.outside = 'everybody knows it';
      for (const [eui, event] of this.removed) {
        const name = this.names.get(eui) || eui;
        if (!key.outside && this.wasHeldBy(key, eui)) key.outside = `${name} held it, which was removed at ${event}`;
      }
    }
    for (let isNew = true; isNew;) {
      isNew = false;
      for (const { event, base, carried } of this.carriers) {
        const [from, to] = [this.keys.get(base), this.keys.get(carried)];
        if (from.outside && !to.outside) {
          to.outside = `a frame of event ${event} carries it under ${shortKey(base)}`;
          isNew = true;
        }
      }
    }
  }

  wasHeldBy(key, eui) {
    return key.holders.some((it) => this.eui.get(it.node) === eui) || this.partners.has(`${key.digits} ${eui}`);
  }
}

/** Returns the words on who held a key from when to when. */
function describeHolder({ node, from, to }) {
  return `${node} ${from}-${to === null ? 'end' : to}`;
}

/** Returns the row of a key. filter(digits) shows only what has to do with it. */
function makeKeyRow(key, filter) {
  const link = make('a', 'key', shortKey(key.digits));
  link.href = '#';
  link.title = key.digits;
  link.addEventListener('click', (event) => { event.preventDefault(); filter(key.digits); });
  const carried = key.carriedBy.map((it) => `, in a frame under ${shortKey(it.base)} at ${it.event}`).join('');
  const first = key.event ? makeLink(`event ${key.event}`, `e${key.event}`) : 'the start';
  return makeRow([link, key.kind, make('td', '', first, `: ${key.from}${carried}`),
    key.holders.map(describeHolder).join(', '),
    String(key.seals), key.outside || 'nobody']);
}

/** Draws the counters of a series as dots over the events; those that come again are red. */
function drawSeries(canvas, points, events) {
  const context = clearCanvas(canvas);
  const [width, height] = [canvas.clientWidth - 12, canvas.clientHeight - 12];
  const counters = points.map((it) => it.counter);
  const low = counters.reduce((a, b) => Math.min(a, b), Infinity);
  const high = counters.reduce((a, b) => Math.max(a, b), -Infinity);
  for (const point of points) {
    const x = 6 + (point.event / Math.max(1, events)) * width;
    const y = 6 + height - ((point.counter - low) / Math.max(1, high - low)) * height;
    context.fillStyle = colour(point.isAgain ? 'bad' : point.isForged ? 'keys-edge' : 'good');
    context.beginPath();
    context.arc(x, y, point.isAgain ? 4 : 2, 0, 7);
    context.fill();
  }
}

/** Returns the elements of one series: a title, and a picture that is drawn once it is in the page. */
function makeSeries(series, nameOf, events) {
  const counters = series.points.map((it) => it.counter);
  const low = counters.reduce((a, b) => Math.min(a, b), Infinity);
  const high = counters.reduce((a, b) => Math.max(a, b), -Infinity);
  const title = make('h3', '', `${series.layer} ${series.label} `, makeKey(series.base),
    ` by ${nameOf(series.source)}`);
  const text = make('p', series.again.length ? 'bad' : 'quiet',
    `${counters.length} counter${counters.length === 1 ? `, ${low}` : `s, ${low} to ${high}`}`
    + (series.again.length ? `; a nonce comes again at ${series.again.join(', ')}` : ', no nonce twice'));
  const canvas = make('canvas', '');
  requestAnimationFrame(() => drawSeries(canvas, series.points, events));
  return [title, text, canvas];
}
