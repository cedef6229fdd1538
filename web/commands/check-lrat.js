// Whether another solver's proof is right.
import { said } from '../drawing/elements.js';
import { told } from '../drawing/told.js';
import { SENTENCES } from '../words/sentences.js';

const WORDS = SENTENCES.answers['check-lrat'].verified;

/** @type {import('../types').Command} */
export const command = { tell: () => told(WORDS, {}, [said(WORDS.said)]) };
