// Edits one after another, and who goes on after each.
import { between, code, make, placed, said, strong, table } from '../drawing/elements.js';
import { node, nodes } from '../drawing/names.js';
import { others, told } from '../drawing/told.js';
import { textOf } from '../state/texts.js';
import { counted } from '../words/saying.js';
import { SENTENCES } from '../words/sentences.js';

/** @typedef {import('../types').Inside} Inside */
/** @typedef {{ at: number, greatest: string[], available: string[], unmet?: string[] }} Edit */

const WORDS = SENTENCES.answers.whatif, CELLS = WORDS.table;
const MOST_EDITS = 500;

/**
 * The edits of an answer, each with its lines by their words.
 * @param {string[]} lines
 * @returns {Edit[]}
 */
function editsIn(lines) {
  /** @type {any[]} */
  const edits = [];
  for (const line of lines) {
    const [word, ...rest] = line.split(' ');
    if (word === 'edit') edits.push({ at: Number(rest[0]) });
    else edits[edits.length - 1][word] = rest;
  }
  return edits;
}

/**
 * A line of the script, with the names of the keys in it.
 * @param {import('../state/network.js').Network} network
 * @param {string} line
 * @returns {Inside[]}
 */
function scriptLine(network, line) {
  const keys = line.split(' ').slice(1).filter((word) => network.names.has(word) && network.name(word) !== word);
  return keys.length ? [code(line), make('span', { class: 'small' }, ' (', between(keys.map((key) => node(network, key))), ')')] : [code(line)];
}

/** @type {import('../types').Command} */
export const command = {
  now: 'set',
  tell(lines, { network, files }) {
    const edits = editsIn(lines), script = textOf(files.script).split('\n'), before = edits[0].greatest, last = edits[edits.length - 1].greatest;
    /**
     * @param {string[]} keys
     * @returns {Inside}
     */
    const quorum = (keys) => {
      const left = new Set(keys), lost = before.filter((key) => !left.has(key));
      if (!keys.length) return strong(CELLS.none, 'bad');
      return [counted(keys.length, 'node'), lost.length ? placed(CELLS.without, { nodes: nodes(network, lost) }) : ''];
    };
    /**
     * @param {Edit} edit
     * @returns {Inside[]}
     */
    const row = ({ at, greatest, available, unmet }) => [at ? scriptLine(network, script[at - 1]) : CELLS.before, quorum(greatest), available[0] === 'yes' ? CELLS.yes : placed(CELLS.no, { nodes: nodes(network, unmet ?? []) })];
    const whole = table(CELLS.label, CELLS.heads, edits.slice(0, MOST_EDITS).map(row)), words = last.length ? WORDS['goes-on'] : WORDS.stops;
    return told(words, {}, [said(words.said), whole, others(edits.length - MOST_EDITS)], { greatest: last });
  },
};
