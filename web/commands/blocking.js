// All minimal sets of nodes that stop the network.
import { listCommand, tellSets } from '../drawing/told.js';
import { SENTENCES } from '../words/sentences.js';

const { blocking: WORDS, common: COMMON } = SENTENCES.answers;

export const command = listCommand((lines, of) => tellSets(WORDS.all, lines, of), COMMON['nothing-to-stop'].said);
