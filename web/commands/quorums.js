// All minimal quorums.
import { listCommand, tellSets } from '../drawing/told.js';
import { SENTENCES } from '../words/sentences.js';

const WORDS = SENTENCES.answers.quorums;

export const command = listCommand((lines, of) => tellSets(WORDS.all, lines, of), WORDS.none.said);
