// All minimal sets of organisations that stop the network.
import { listCommand, tellOrgSets } from '../drawing/told.js';
import { SENTENCES } from '../words/sentences.js';

const { 'org-blocking': WORDS, common: COMMON } = SENTENCES.answers;

export const command = listCommand((lines, of) => tellOrgSets(WORDS.all, lines, of), COMMON['nothing-to-stop'].said);
