// Whether a set is dispensable.
import { placed, said } from '../drawing/elements.js';
import { nodes } from '../drawing/names.js';
import { pair, told } from '../drawing/told.js';
import { namesIn } from '../state/texts.js';
import { SENTENCES } from '../words/sentences.js';

/** @typedef {'yes' | 'no' | 'unknown'} Word */

const { available: AVAILABLE, dset: WORDS } = SENTENCES.answers;

/** @type {import('../types').Command} */
export const command = {
  tell(lines, of) {
    const at = lines.findIndex((line) => line.startsWith('intersects ')), word = /** @type {Word} */ (lines[lines.length - 1].split(' ')[1]);
    const unmet = namesIn(lines.find((line) => /^unmet( |$)/.test(line))), forking = /** @type {Word} */ (lines[at].split(' ')[1]);
    const found = forking === 'no' ? pair(of, lines.slice(at + 1, at + 3)) : { more: [], sets: {} };
    const silent = unmet.length ? placed(WORDS.silent.unmet, { nodes: nodes(of.network, unmet) }) : WORDS.silent.said;
    const more = [said(silent), said(WORDS[forking].said), ...found.more];
    return { ...told(WORDS[word], {}, more, { ...found.sets, marked: unmet, markedAs: AVAILABLE.no.marked }), again: word === 'unknown' };
  },
};
