// A smallest quorum.
import { placed, said } from '../drawing/elements.js';
import { nodes } from '../drawing/names.js';
import { noQuorum, told, undecided } from '../drawing/told.js';
import { namesIn } from '../state/texts.js';
import { counted, filled } from '../words/saying.js';
import { SENTENCES } from '../words/sentences.js';

const WORDS = SENTENCES.answers.least.all;

/** @type {import('../types').Command} */
export const command = {
  now: 'file',
  tell(lines, of) {
    const [, word, units] = lines[0].split(' ');
    if (word === 'unknown') return undecided(units);
    if (word === 'none') return noQuorum(of);
    const keys = namesIn(lines[1]), head = filled(keys.length === 1 ? WORDS.alone : WORDS.head, { count: counted(keys.length, 'node') });
    return told({ ...WORDS, head }, {}, [said(placed(WORDS.said, { nodes: nodes(of.network, keys) }))], { marked: keys, markedAs: WORDS.marked });
  },
  shown(lines, of) {
    const keys = namesIn(lines[0]);
    return lines.length ? { more: [said(nodes(of.network, keys))], sets: { marked: keys, markedAs: WORDS.marked } } : { more: [], sets: {} };
  },
};
