// What the page holds: the files that were given and what they are called, and what is made of them.
import { Network } from './network.js';

/** @typedef {import('../types').Files} Files */

export const state = {
  /** @type {Files} */
  files: {},
  /** @type {Record<string, string>} What the files are called. */
  called: {},
  network: new Network(null, null),
  /** @type {import('./asker.js').Asker | null} */
  asker: null,
  /** @type {import('../drawing/chooser.js').Chooser | null} Who falls silent. */
  silent: null,
  /** @type {import('../drawing/chooser.js').Chooser | null} Who lies. */
  lying: null,
  /** @type {Set<string>} The lines of the module's usage text. */
  usage: new Set(),
  /** @type {string[]} The links under which bytes are saved. */
  saved: [],
  isExample: false,
  /** How many questions were asked. */
  turn: 0,
};

/** What the files of a question are called in links: the configuration's name without its ending. */
export const base = () => (state.called.config ?? 'network').replace(/\.json$/i, '').replace(/[^\w.-]+/g, '-');

/** Makes the network anew, after its files changed. */
export function readNetwork() {
  state.network = new Network(state.files.config, state.files.orgs);
}
