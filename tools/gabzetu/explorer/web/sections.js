// A frame field by field: what each section has, with offsets, and what is sealed.

/** Returns the bytes of a field, most significant first where it is a number or an address. */
function digitsOf(bytes, [offset, size, , shape]) {
  const digits = bytes.slice(2 * offset, 2 * (offset + size));
  return /^(number|short|address)$/.test(shape) ? digits.match(/../g).reverse().join('') : digits;
}

/** Returns the value of a field in words: a number in decimal, an address with the node that has it. */
function meaningOf(bytes, field, nameOf) {
  const [, size, , shape, note] = field;
  const digits = digitsOf(bytes, field);
  const name = shape === 'address' || shape === 'short' ? nameOf(digits) : '';
  const number = shape === 'number' && size > 1 && !note ? String(parseInt(digits, 16)) : '';
  return [number, name, note].filter(Boolean).join(', ');
}

/** Returns the table of a section. nameOf returns the node of an address, or nothing. */
function makeSection([, title, bytes, layout], nameOf) {
  const rows = data.layouts[layout].map((field) => {
    const [offset, size, name, shape] = field;
    const digits = make('td', 'digits', digitsOf(bytes, field));
    const cells = [String(offset), String(size), name, digits, meaningOf(bytes, field, nameOf)];
    return makeRow(cells, shape === 'sealed' || shape === 'code' ? 'sealed' : '');
  });
  return [make('h3', '', `${data.texts[title]}, ${bytes.length / 2} bytes`),
    makeTable(['at', 'bytes', 'field', 'value', 'meaning'], rows)];
}

/** Returns the tables of all sections of a frame. */
function makeSections(sections, nameOf) {
  return sections.flatMap((section) => makeSection(section, nameOf));
}
