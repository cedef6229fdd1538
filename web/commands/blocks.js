// Whether a set stops the network by falling silent.
import { placed, said } from '../drawing/elements.js';
import { nodes } from '../drawing/names.js';
import { told } from '../drawing/told.js';
import { namesIn } from '../state/texts.js';
import { SENTENCES } from '../words/sentences.js';

const WORDS = SENTENCES.answers.blocks;

/** @type {import('../types').Command} */
export const command = {
  now: 'set',
  tell(lines, of) {
    if (lines[0] === 'blocks yes') return told(WORDS.yes, {}, [said(of.greatest.length ? WORDS.yes.said : WORDS.yes.none)], { greatest: [] });
    const left = namesIn(lines[1]);
    return told(WORDS.no, {}, [said(placed(WORDS.no.said, { nodes: nodes(of.network, left) }))], { greatest: left });
  },
};
