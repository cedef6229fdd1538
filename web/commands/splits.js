// Whether a set can fork the network by lying.
import { said } from '../drawing/elements.js';
import { pair, told, undecided } from '../drawing/told.js';
import { SENTENCES } from '../words/sentences.js';

const WORDS = SENTENCES.answers.splits;

/** @type {import('../types').Command} */
export const command = {
  now: 'file',
  silent: false,
  tell(lines, of) {
    const [, word, units] = lines[0].split(' ');
    if (word === 'unknown') return undecided(units);
    if (word === 'no') return told(WORDS.no, {}, [said(WORDS.no.said)]);
    const { more, sets } = pair(of, lines.slice(1, 3));
    return told(WORDS.yes, {}, [said(WORDS.yes.said), ...more], sets);
  },
};
