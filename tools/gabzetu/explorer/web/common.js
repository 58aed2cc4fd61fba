// What all pages use: the data of this page, elements whose texts are texts, and the parts of the bar.
// Texts come from strangers: they go in by textContent alone.

const data = JSON.parse(document.getElementById('data').textContent);
const place = (id) => document.getElementById(id);

/** Returns an element with a class, and a text or children in it. */
function make(tag, name, ...children) {
  const element = document.createElement(tag);
  if (name) element.className = name;
  element.append(...children.map((it) => (typeof it === 'object' ? it : document.createTextNode(String(it)))));
  return element;
}

/** Returns a link that goes to an event or a frame of this page. */
function makeLink(text, mark) {
  const link = make('a', '', text);
  link.href = `#${mark}`;
  return link;
}

/** Returns a button with a text. */
function makeButton(text, act) {
  const button = make('button', '', text);
  button.type = 'button';
  button.addEventListener('click', act);
  return button;
}

/** Returns a table with a row of heads. Cells are texts or elements. */
function makeTable(heads, rows) {
  const table = make('table', '');
  table.append(make('tr', '', ...heads.map((it) => {
    const head = make('th', '', it);
    head.scope = 'col';
    return head;
  })));
  table.append(...rows);
  return table;
}

/** Returns a row of cells. */
function makeRow(cells, name) {
  return make('tr', name || '', ...cells.map((it) => (it instanceof HTMLTableCellElement ? it : make('td', '', it))));
}

/** Adds a choice to the filters, and returns its select element. Options are pairs of value and text. */
function addChoice(title, options, act) {
  const select = make('select', '', ...options.map(([value, text]) => {
    const option = make('option', '', text);
    option.value = value;
    return option;
  }));
  select.addEventListener('change', act);
  place('filters').append(make('label', '', `${title} `, select));
  return select;
}

/** Adds a field for words to the filters, and returns it. */
function addField(title, hint, size, act) {
  const input = make('input');
  input.placeholder = hint;
  input.size = size;
  input.addEventListener('input', act);
  place('filters').append(make('label', '', `${title} `, input));
  return input;
}

/** Adds a box to tick to the filters, and returns it. */
function addTick(title, isTicked, act) {
  const input = make('input');
  input.type = 'checkbox';
  input.checked = isTicked;
  input.addEventListener('change', act);
  place('filters').append(make('label', '', input, ` ${title}`));
  return input;
}

/** Hands a text to the user as a file. */
function saveFile(name, text) {
  const link = make('a');
  link.href = URL.createObjectURL(new Blob([text], { type: 'text/plain' }));
  link.download = name;
  link.click();
  URL.revokeObjectURL(link.href);
}

/** Returns the first digits of a key, by which people know it. */
function shortKey(key) {
  return `${key.slice(0, 8)}..`;
}

/** Returns an element with the first digits of a key; all of them show when the mouse is over it. */
function makeKey(key) {
  const element = make('span', 'key', shortKey(key));
  element.title = key;
  return element;
}

const colours = new Map();
matchMedia('(prefers-color-scheme: dark)').addEventListener('change', () => colours.clear());

/** Returns the value of a colour of the style. */
function colour(name) {
  if (!colours.has(name)) {
    colours.set(name, getComputedStyle(document.documentElement).getPropertyValue(`--${name}`).trim());
  }
  return colours.get(name);
}

/** Returns the context of a canvas in which a unit is a dot of the page, cleared. */
function clearCanvas(canvas, width = canvas.clientWidth, height = canvas.clientHeight) {
  const ratio = window.devicePixelRatio || 1;
  canvas.width = Math.max(1, Math.round(width * ratio));
  canvas.height = Math.max(1, Math.round(height * ratio));
  const context = canvas.getContext('2d');
  context.scale(ratio, ratio);
  return context;
}

/** Tabs at the side: each has a name and a function that fills the panel. choose(name) is called for a click. */
class Tabs {
  constructor(fill, choose) {
    this.fill = fill;
    this.buttons = new Map(Object.keys(fill).map((name) => [name, makeButton(name, () => choose(name))]));
    for (const [name, button] of this.buttons) {
      button.id = `tab-${name.toLowerCase()}`;
      button.setAttribute('role', 'tab');
      button.setAttribute('aria-controls', 'panel');
    }
    place('tabs').append(...this.buttons.values());
    place('tabs').addEventListener('keydown', (event) => this.move(event));
    [this.name] = Object.keys(fill);
  }

  /** Goes to another tab by an arrow key, as lists of tabs do. */
  move(event) {
    const names = [...this.buttons.keys()];
    const steps = { ArrowRight: 1, ArrowLeft: -1 };
    if (!(event.key in steps)) return;
    event.preventDefault();
    event.stopPropagation();
    const name = names[(names.indexOf(this.name) + steps[event.key] + names.length) % names.length];
    this.buttons.get(name).click();
    this.buttons.get(name).focus();
  }

  /** Fills the panel by the chosen tab, or by another one. */
  show(name) {
    this.name = name || this.name;
    for (const [name, button] of this.buttons) {
      button.classList.toggle('chosen', name === this.name);
      button.setAttribute('aria-selected', name === this.name);
      button.tabIndex = name === this.name ? 0 : -1;
    }
    place('panel').setAttribute('aria-labelledby', `tab-${this.name.toLowerCase()}`);
    place('panel').replaceChildren(...this.fill[this.name]());
    place('panel').scrollTop = 0;
  }
}

/** Lets the arrows, Home, End and the page keys move among the rows while the list of rows has the focus. */
function onRowKeys(step) {
  const many = 1e9;
  const steps = { ArrowDown: 1, ArrowUp: -1, PageDown: 10, PageUp: -10, Home: -many, End: many };
  place('rows').addEventListener('keydown', (event) => {
    if (!(event.key in steps) || event.ctrlKey || event.metaKey || event.altKey) return;
    event.preventDefault();
    step(steps[event.key]);
  });
}

/** Calls an act for a key, unless the user is writing in a field. */
function onKeys(acts) {
  document.addEventListener('keydown', (event) => {
    if (event.key === 'Escape') document.activeElement.blur();
    const isWriting = /^(INPUT|SELECT|TEXTAREA)$/.test(event.target.tagName);
    if (isWriting || event.ctrlKey || event.metaKey || event.altKey) return;
    if (acts[event.key]) {
      event.preventDefault();
      acts[event.key]();
    }
  });
}
