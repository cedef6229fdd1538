// On whom a node depends.
import { placed, said } from '../drawing/elements.js';
import { nodes } from '../drawing/names.js';
import { told } from '../drawing/told.js';
import { namesIn } from '../state/texts.js';
import { counted } from '../words/saying.js';
import { SENTENCES } from '../words/sentences.js';

const WORDS = SENTENCES.answers.closure.all;

/** @type {import('../types').Command} */
export const command = {
  tell(lines, of) {
    const keys = namesIn(lines[0]), more = [said(placed(WORDS.said, { nodes: nodes(of.network, keys) }))];
    return told(WORDS, { node: of.network.name(of.node), count: counted(keys.length, 'node') }, more, { marked: keys, markedAs: WORDS.marked, within: keys });
  },
};
