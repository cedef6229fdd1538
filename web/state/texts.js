// Bytes as texts, and the lines that the program prints.

/** @param {Uint8Array} bytes */
export const textOf = (bytes) => new TextDecoder().decode(bytes);
/** @param {string} text */
export const bytesOf = (text) => new TextEncoder().encode(text);

/** @param {string} text */
export const linesOf = (text) => text.split('\n').slice(0, -1);
/**
 * The names of a line, which stand after its first word.
 * @param {string | undefined} line
 */
export const namesIn = (line) => (line ?? '').split(' ').slice(1);
/**
 * The sets of a list, the smallest first.
 * @param {string[]} lines
 */
export const setsIn = (lines) => lines.filter((line) => /^set( |$)/.test(line)).map(namesIn).sort((a, b) => a.length - b.length);

/**
 * @param {Uint8Array} bytes
 * @returns {Promise<string | null>}
 */
export async function sha256(bytes) {
  if (!crypto.subtle) return null;
  const digest = new Uint8Array(await crypto.subtle.digest('SHA-256', bytes));
  return [...digest].map((byte) => byte.toString(16).padStart(2, '0')).join('');
}
