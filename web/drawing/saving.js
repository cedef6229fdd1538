// Links that save what the page has made.
import { base, state } from '../state/state.js';
import { bytesOf } from '../state/texts.js';
import { make } from './elements.js';

/**
 * A link that saves bytes under a name.
 * @param {string} text
 * @param {string} name
 * @param {Uint8Array} bytes
 * @param {string} kind
 */
export function save(text, name, bytes, kind = 'button') {
  const url = URL.createObjectURL(new Blob([bytes], { type: 'application/octet-stream' }));
  state.saved.push(url);
  return make('a', { class: kind, href: url, download: name }, text);
}

/** @param {number} bytes */
export const size = (bytes) => (bytes < 10000 ? `${bytes} bytes` : bytes < 10e6 ? `${Math.round(bytes / 1000)} kB` : `${Math.round(bytes / 1e6)} MB`);

/** The file that is asked about as things are now. */
export const nowLink = () => save('The file as things are now', `${base()}-now.json`, bytesOf(state.network.nowText()), 'link');
