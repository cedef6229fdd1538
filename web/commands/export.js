// The formula of the question whether the network can fork.
import { said } from '../drawing/elements.js';
import { told } from '../drawing/told.js';
import { SENTENCES } from '../words/sentences.js';

const WORDS = SENTENCES.answers.export.made;

/** @type {import('../types').Command} */
export const command = {
  tell(lines) {
    const [, , variables, clauses] = lines.find((line) => line.startsWith('p cnf '))?.split(' ') ?? [];
    return { ...told(WORDS, { variables, clauses }, [said(WORDS.said)]), saves: 'cnf' };
  },
};
