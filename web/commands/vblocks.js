// Whether a set stops one node by falling silent.
import { said } from '../drawing/elements.js';
import { told } from '../drawing/told.js';
import { SENTENCES } from '../words/sentences.js';

const WORDS = SENTENCES.answers.vblocks;

/** @type {import('../types').Command} */
export const command = {
  now: 'set',
  tell(lines, of) {
    const words = lines[0] === 'vblocks yes' ? WORDS.yes : WORDS.no;
    return told(words, { node: of.network.name(of.node) }, [said(words.said)]);
  },
};
