// The picture in the middle: a lane for each node, a row for each thing that happened. Only the rows around those that
// are seen are elements of the page, so that any number of rows can be scrolled. The height of each row is known
// without drawing it.
//
// A row: mark, note and outcome (the first column), target (its place in the address), boxes
// {lane, kind, lines}, whether they are side by side (isFlat), and frames {from, label, tone, arrows: [{to, fate,
// tone, isLost}]}. Lanes are places among the heads.

const MANY = 6; // with more lanes than these, they are narrow, and the first column has the outcome of each row
const LINE = 15;
const LABEL = 17;
const ARROW = 16;
const AROUND = 120; // rows that are drawn above and below those that are seen
const RIGHT_ROOM = 330; // for labels of frames of the last lane
const PRINTED = 3000; // rows that are printed at most
const PAPER = 960; // the width of a sheet, in pixels

const measure = document.createElement('canvas').getContext('2d');
measure.font = '11.5px system-ui, "Segoe UI", "DejaVu Sans", sans-serif';

/** Breaks a text into lines that a box of this width has room for. */
function breakText(text, width) {
  const lines = [];
  let line = '';
  for (const word of text.split(' ')) {
    const longer = line ? `${line} ${word}` : word;
    if (line && measure.measureText(longer).width > width) {
      lines.push(line);
      line = word;
    } else {
      line = longer;
    }
  }
  return [...lines, line];
}

function heightOfBox(box) {
  return box.lines.length * LINE + 6;
}

function heightOfBoxes(row) {
  const heights = row.boxes.map((box) => heightOfBox(box) + 3);
  return row.isFlat ? Math.max(0, ...heights) : heights.reduce((sum, it) => sum + it, 0);
}

function heightOfRow(row, least) {
  const boxes = heightOfBoxes(row);
  const frames = row.frames.reduce((sum, frame) => sum + LABEL + ARROW * Math.max(1, frame.arrows.length), 0);
  return Math.max(least, boxes + frames + 7);
}

class Lanes {
  /**
   * count: of rows; rowAt(i): the row at a place; heads: [{name, more, title, act}]; choose(target): a row was
   * clicked.
   */
  constructor(choose) {
    this.choose = choose;
    this.scroller = place('scroller');
    this.box = place('rows');
    this.chosen = '';
    this.scroller.addEventListener('scroll', () => this.drawSeen());
    window.addEventListener('resize', () => this.drawSeen());
    window.addEventListener('beforeprint', () => this.drawPaper());
    window.addEventListener('afterprint', () => this.drawSeen());
    this.box.addEventListener('click', (event) => {
      const row = event.target.closest('.row');
      if (row) this.choose(row.dataset.target);
    });
  }

  /** Shows other rows. Lanes get narrower where there are many of them. */
  set(heads, count, makeRowAt) {
    this.heads = heads;
    this.count = count;
    this.isMany = heads.length > MANY;
    this.width = heads.length > 12 ? 136 : this.isMany ? 170 : 230;
    this.margin = this.isMany ? 310 : 168;
    document.documentElement.style.setProperty('--event', `${this.margin}px`);
    this.total = this.margin + heads.length * this.width + RIGHT_ROOM;
    this.rowAt = (i) => makeRowAt(i, this.width - 26);
    this.tops = new Float64Array(count + 1);
    const least = this.isMany ? 38 : 25;
    for (let i = 0; i < count; i += 1) this.tops[i + 1] = this.tops[i] + heightOfRow(this.rowAt(i), least);
    this.first = this.last = -1;
    this.drawHeads();
    this.box.style.height = `${this.tops[count]}px`;
    this.box.style.width = `${this.total}px`;
    this.box.replaceChildren(...heads.map((_, lane) => this.makeLife(lane)));
    this.lives = heads.length;
    this.drawSeen();
  }

  middle(lane) {
    return this.margin + lane * this.width + this.width / 2;
  }

  drawHeads() {
    const box = place('heads');
    box.style.width = `${this.total}px`;
    const corner = make('div', 'corner', data.kind === 'run' ? 'event' : 'packet');
    box.replaceChildren(corner, ...this.heads.map((head, lane) => {
      const element = make('button', 'head', make('b', '', head.name), make('span', '', head.more));
      element.type = 'button';
      element.title = head.title;
      element.setAttribute('aria-label', head.title);
      element.style.left = `${this.margin + lane * this.width}px`;
      element.style.width = `${this.width}px`;
      element.addEventListener('click', head.act);
      return element;
    }));
  }

  makeLife(lane) {
    const life = make('div', 'life');
    life.style.left = `${this.middle(lane)}px`;
    life.setAttribute('aria-hidden', true);
    return life;
  }

  /** Returns the place of the row that covers a height. */
  rowAtHeight(height) {
    let low = 0;
    let high = this.count;
    while (high - low > 1) {
      const half = (low + high) >> 1;
      if (this.tops[half] <= height) low = half; else high = half;
    }
    return low;
  }

  /** Returns the first and the last place of the rows that are seen. */
  seen() {
    const top = this.scroller.scrollTop;
    return [this.rowAtHeight(top), Math.min(this.count - 1, this.rowAtHeight(top + this.scroller.clientHeight))];
  }

  drawSeen() {
    if (!this.tops) return;
    const [first, last] = this.seen();
    if (this.first < 0 || first - this.first < AROUND / 3 || this.last - last < AROUND / 3) {
      this.drawRows(Math.max(0, first - AROUND), Math.min(this.count, last + 1 + AROUND));
    }
    if (this.onSeen) this.onSeen(first, last);
  }

  drawRows(first, last) {
    if (first === this.first && last === this.last) return;
    this.first = first;
    this.last = last;
    const rows = [];
    for (let i = first; i < last; i += 1) rows.push(this.makeRow(i));
    this.box.replaceChildren(...[...this.box.children].slice(0, this.lives), ...rows);
  }

  /** Draws the first rows for paper, as wide as a sheet, and says how many are left out. */
  drawPaper() {
    if (!this.tops) return;
    this.drawRows(0, Math.min(this.count, PRINTED));
    document.documentElement.style.setProperty('--fit', Math.min(1, PAPER / this.total));
    const left = this.count - PRINTED;
    if (left > 0) this.box.append(make('p', 'left-out', `${left} further rows are not printed: filter them first.`));
    this.first = -1;
  }

  makeRow(i) {
    const row = this.rowAt(i);
    const mark = make('div', 'mark', make('b', '', row.mark), make('span', '', row.note));
    if (this.isMany) mark.append(make('div', `outcome tone-${row.tone}`, row.outcome));
    mark.title = `${row.note}\n${row.outcome}`;
    const element = make('div', 'row', mark);
    element.dataset.target = row.target;
    element.id = `row-${row.target}`;
    element.setAttribute('role', 'option');
    element.setAttribute('aria-posinset', i + 1);
    element.setAttribute('aria-setsize', this.count);
    element.setAttribute('aria-selected', row.target === this.chosen);
    element.setAttribute('aria-label', `${row.mark} ${row.note} ${row.outcome}`);
    element.style.top = `${this.tops[i]}px`;
    element.style.height = `${this.tops[i + 1] - this.tops[i]}px`;
    element.classList.toggle('chosen', row.target === this.chosen);
    let top = 4;
    for (const box of row.boxes) {
      element.append(this.makeBox(box, top));
      if (!row.isFlat) top += heightOfBox(box) + 3;
    }
    for (const frame of row.frames) {
      element.append(...this.makeFrame(frame, top));
      top += LABEL + ARROW * Math.max(1, frame.arrows.length);
    }
    return element;
  }

  makeBox(box, top) {
    const element = make('div', `box ${box.kind}`, box.lines.join('\n'));
    element.title = box.lines.join('\n');
    element.style.left = `${this.margin + box.lane * this.width + 5}px`;
    element.style.width = `${this.width - 10}px`;
    element.style.top = `${top}px`;
    element.style.height = `${heightOfBox(box)}px`;
    return element;
  }

  /** Returns the label of a frame, and below it an arrow for each receiver. */
  makeFrame(frame, top) {
    const targets = frame.arrows.map((it) => it.to).filter((it) => it !== null);
    const ends = [frame.from, ...targets].map((lane) => this.middle(lane));
    const left = Math.min(...ends);
    const span = make('div', 'span', make('span', `label tone-${frame.tone}`, frame.label));
    span.firstChild.title = frame.label;
    span.style.left = `${left + 2}px`;
    span.style.width = `${Math.max(Math.max(...ends) - left, RIGHT_ROOM)}px`;
    span.style.top = `${top}px`;
    const arrows = frame.arrows.length ? frame.arrows : [{ to: null, fate: '', tone: frame.tone, isLost: true }];
    return [span, ...arrows.map((arrow, i) => this.makeArrow(frame.from, arrow, top + LABEL + ARROW * i + 7))];
  }

  makeArrow(from, arrow, top) {
    const start = this.middle(from);
    const end = arrow.to === null ? start + 70 : this.middle(arrow.to);
    const side = end >= start ? 'right' : 'left';
    const element = make('div', `arrow ${side} tone-${arrow.tone}${arrow.isLost ? ' lost' : ''}`);
    element.style.left = `${Math.min(start, end)}px`;
    element.style.width = `${Math.abs(end - start)}px`;
    element.style.top = `${top}px`;
    if (arrow.fate) {
      const fate = make('span', 'fate', arrow.fate);
      fate.title = arrow.fate;
      fate.style.maxWidth = `${Math.max(60, Math.abs(end - start) - 22)}px`;
      element.append(fate);
    }
    return element;
  }

  /** Marks the row of a target, and brings it into view, and of its lanes the first. */
  mark(target, i) {
    this.chosen = target;
    for (const row of this.box.querySelectorAll('.row.chosen')) {
      row.classList.remove('chosen');
      row.setAttribute('aria-selected', false);
    }
    this.box.removeAttribute('aria-activedescendant');
    if (i < 0) return;
    const [top, bottom] = [this.tops[i], this.tops[i + 1]];
    const room = this.scroller.clientHeight - 40;
    if (top < this.scroller.scrollTop) this.scroller.scrollTop = Math.max(0, top - room / 3);
    else if (bottom > this.scroller.scrollTop + room) this.scroller.scrollTop = Math.min(top, bottom - (room * 2) / 3);
    this.showLane(this.rowAt(i));
    this.drawSeen();
    const row = this.box.children[this.lives + i - this.first];
    if (!row) return;
    row.classList.add('chosen');
    row.setAttribute('aria-selected', true);
    this.box.setAttribute('aria-activedescendant', row.id);
  }

  showLane(row) {
    const [lane] = [...row.boxes.map((it) => it.lane), ...row.frames.map((it) => it.from)];
    if (lane === undefined) return;
    const [left, right] = [this.middle(lane) - this.margin - this.width / 2, this.middle(lane) + this.width / 2];
    const [seen, room] = [this.scroller.scrollLeft, this.scroller.clientWidth];
    if (left < seen) this.scroller.scrollLeft = left;
    else if (right > seen + room) this.scroller.scrollLeft = right - room + this.width;
  }
}
