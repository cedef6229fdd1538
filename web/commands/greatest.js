// The greatest quorum.
import { placed, said } from '../drawing/elements.js';
import { nodes } from '../drawing/names.js';
import { noQuorum, told } from '../drawing/told.js';
import { namesIn } from '../state/texts.js';
import { counted, filled } from '../words/saying.js';
import { SENTENCES } from '../words/sentences.js';

const WORDS = SENTENCES.answers.greatest.all;

/** @type {import('../types').Command} */
export const command = {
  now: 'file',
  tell(lines, of) {
    const keys = namesIn(lines[0]), left = of.network.keys.length - keys.length;
    if (!keys.length) return noQuorum(of);
    const more = [said(placed(WORDS.said, { nodes: nodes(of.network, keys) })), said(left ? filled(WORDS.rest, { left }) : WORDS.whole)];
    return told(WORDS, { count: counted(keys.length, 'node') }, more, { greatest: keys });
  },
};
