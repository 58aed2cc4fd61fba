// The map of a long run: a strip as wide as the window, with a tick for each row, and the part that is seen.

class Strip {
  /** tones: for each row the name of a colour, or none; go(i): the user clicked at a row. */
  constructor(go) {
    this.canvas = place('strip');
    this.ticks = document.createElement('canvas');
    this.tones = [];
    this.first = this.last = 0;
    const act = (event) => go(Math.floor((event.offsetX / this.canvas.clientWidth) * this.tones.length));
    this.canvas.addEventListener('pointerdown', act);
    this.canvas.addEventListener('pointermove', (event) => { if (event.buttons) act(event); });
    window.addEventListener('resize', () => this.draw());
    matchMedia('(prefers-color-scheme: dark)').addEventListener('change', () => this.draw());
  }

  set(tones) {
    this.tones = tones;
    this.draw();
  }

  see(first, last) {
    this.first = first;
    this.last = last;
    this.drawSeen();
  }

  /**
   * Draws the ticks on a canvas that is kept, so that scrolling draws no more than the frame of the part that is
   * seen.
   */
  draw() {
    const [width, height] = [this.canvas.clientWidth, this.canvas.clientHeight];
    const context = clearCanvas(this.ticks, width, height);
    const columns = Math.max(1, Math.min(width, this.tones.length));
    const edges = Array.from({ length: columns + 1 }, (_, i) => Math.round((i * this.tones.length) / columns));
    for (let i = 0; i < columns; i += 1) {
      drawTick(context, this.tones.slice(edges[i], edges[i + 1]), (i * width) / columns, width / columns, height);
    }
    this.drawSeen();
  }

  drawSeen() {
    const context = clearCanvas(this.canvas);
    const [width, height] = [this.canvas.clientWidth, this.canvas.clientHeight];
    const step = width / Math.max(1, this.tones.length);
    context.drawImage(this.ticks, 0, 0, width, height);
    context.strokeStyle = colour('link');
    context.lineWidth = 2;
    context.strokeRect(this.first * step + 1, 1, Math.max(4, (this.last + 1 - this.first) * step - 2), height - 2);
  }
}

/** Draws the rows of one tick: a part of its height for each colour, as many as there are of it. */
function drawTick(context, tones, x, width, height) {
  let bottom = height - 2;
  for (const tone of ['plain-edge', 'lost', 'refusal-edge', 'boot-edge', 'keys-edge']) {
    const count = tones.filter((it) => it === tone).length;
    const room = (tone === 'plain-edge' ? 0.35 : 1) * (height - 4) * (count / tones.length);
    const part = count ? Math.max(2, room) : 0;
    context.fillStyle = colour(tone);
    context.fillRect(x, bottom - part, width > 3 ? width - 1 : width, part);
    bottom -= part;
  }
}
