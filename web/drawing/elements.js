// Elements of the page as the script makes them. What comes from a file stands in them as text, never as markup.

/** @typedef {import('../types').Inside} Inside */

/**
 * @param {string} id
 * @returns {any}
 */
export const $ = (id) => document.getElementById(id);

/**
 * An element with its attributes and what stands in it.
 * @param {string} tag
 * @param {Record<string, string | boolean | null>} given
 * @param {...Inside} inside
 * @returns {any}
 */
export function make(tag, given = {}, ...inside) {
  const made = document.createElement(tag);
  for (const [name, value] of Object.entries(given)) if (value !== null && value !== false) made.setAttribute(name, value === true ? '' : value);
  made.append(.../** @type {(Node | string)[]} */ (inside.flat(9).filter((it) => it !== null && it !== undefined && it !== '')));
  return made;
}

/** @param {...Inside} parts */
export const said = (...parts) => make('p', {}, parts);
/** @param {string} text */
export const code = (text) => make('code', {}, text);
/**
 * @param {string} text
 * @param {string | null} kind
 */
export const strong = (text, kind = null) => make('b', { class: kind }, text);
/**
 * A name out of a file, with its key for who points at it.
 * @param {string} name
 * @param {string | null} key
 */
export const named = (name, key = null) => make('span', { class: 'node', title: key }, name);
/**
 * @param {string} tag
 * @param {Inside[]} rows
 */
export const listed = (tag, rows) => make(tag, {}, rows.map((row) => make('li', {}, row)));
/**
 * @param {Inside[]} parts
 * @param {string} sign
 */
export const between = (parts, sign = ', ') => parts.flatMap((part, at) => (at ? [sign, part] : [part]));
/**
 * @param {Inside} head
 * @param {boolean} open
 * @param {...Inside} inside
 */
export const fold = (head, open, ...inside) => make('details', { open }, make('summary', {}, head), inside);

/**
 * A text with what stands in its places.
 * @param {string} text
 * @param {Record<string, Inside>} values
 * @returns {Inside[]}
 */
export const placed = (text, values) => text.split(/\{(\w+)\}/).map((part, at) => (at % 2 ? values[part] : part));

/**
 * A table that scrolls by itself if it is wider than the window. The first of each row is its heading.
 * @param {string} label
 * @param {string[]} heads
 * @param {Inside[][]} rows
 * @param {string | null} id
 */
export function table(label, heads, rows, id = null) {
  const head = make('tr', {}, heads.map((it) => make('th', { scope: 'col' }, it)));
  const body = rows.map(([first, ...rest]) => make('tr', {}, make('th', { scope: 'row' }, first), rest.map((it) => make('td', {}, it))));
  const whole = make('table', { id }, make('thead', {}, head), make('tbody', {}, body));
  return make('div', { class: 'wide', tabindex: '0', role: 'region', 'aria-label': label }, whole);
}

/** @param {string} text */
export function trouble(text) {
  $('trouble').textContent = text;
  $('trouble').hidden = !text;
}
