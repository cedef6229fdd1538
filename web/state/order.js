// In which order names, keys and sets stand.

/**
 * By which names are sorted: numbers in them count as numbers.
 * @param {string} name
 * @returns {[number, bigint, string][]}
 */
export const natural = (name) => name.toLowerCase().split(/([0-9]+)/).filter(Boolean).map((part) => (/^[0-9]/.test(part) ? [0, BigInt(part), ''] : [1, 0n, part]));

/**
 * Which of two values or lists comes first.
 * @param {any} a
 * @param {any} b
 * @returns {number}
 */
export function compared(a, b) {
  if (!Array.isArray(a)) return a < b ? -1 : a > b ? 1 : 0;
  for (let at = 0; at < Math.min(a.length, b.length); at++) {
    const order = compared(a[at], b[at]);
    if (order) return order;
  }
  return a.length - b.length;
}

/**
 * @template Item
 * @param {Iterable<Item>} some
 * @param {(item: Item) => any} key
 * @returns {Item[]}
 */
export const sortedBy = (some, key) => [...some].map((it) => ({ key: key(it), it })).sort((a, b) => compared(a.key, b.key)).map(({ it }) => it);

/**
 * @param {Iterable<string>} keys
 * @returns {string}
 */
export const least = (keys) => [...keys].reduce((a, b) => (a < b ? a : b));
