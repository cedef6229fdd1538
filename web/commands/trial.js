// Whether a made-up network can fork.
import { said } from '../drawing/elements.js';
import { told, undecided } from '../drawing/told.js';
import { counted, filled } from '../words/saying.js';
import { SENTENCES } from '../words/sentences.js';

const WORDS = SENTENCES.answers.trial;

/** @type {import('../types').Command} */
export const command = {
  tell(lines) {
    const [organisations, nodes, variables, clauses] = lines.map((line) => line.split(' ')[1]), [, word, units] = lines[4].split(' ');
    const size = said(filled(WORDS.size.said, { nodes, organisations: counted(Number(organisations), 'organisation'), variables, clauses }));
    const spent = undecided(units);
    if (word === 'unknown') return { ...spent, more: [size, spent.more] };
    return told(WORDS.yes, {}, [size, said(WORDS.yes.said)]);
  },
};
