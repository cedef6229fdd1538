// Whether all others go on if a set falls silent.
import { placed, said } from '../drawing/elements.js';
import { nodes } from '../drawing/names.js';
import { told } from '../drawing/told.js';
import { namesIn } from '../state/texts.js';
import { counted } from '../words/saying.js';
import { SENTENCES } from '../words/sentences.js';

const WORDS = SENTENCES.answers.available;

/** @type {import('../types').Command} */
export const command = {
  now: 'set',
  tell(lines, of) {
    if (lines[0] === 'available yes') return told(WORDS.yes, {}, [said(WORDS.yes.said)]);
    const unmet = namesIn(lines[1]), text = unmet.length === 1 ? WORDS.no.alone : WORDS.no.said;
    const more = said(placed(text, { count: counted(unmet.length, 'node'), nodes: nodes(of.network, unmet) }));
    return told(WORDS.no, {}, [more], { marked: unmet, markedAs: WORDS.no.marked });
  },
};
