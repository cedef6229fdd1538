// What a certificate shows.
import { said, strong } from '../drawing/elements.js';
import { node, nodes } from '../drawing/names.js';
import { pair, told } from '../drawing/told.js';
import { linesOf, namesIn, textOf } from '../state/texts.js';
import { SENTENCES } from '../words/sentences.js';

const WORDS = SENTENCES.answers.check;
/** @type {Record<string, string[]>} */
const KINDS = WORDS.kinds;

/**
 * What it shows besides: the two quorums of a pair, which stand in the certificate and not in the answer, or the sets of a list.
 * @param {string} kind
 * @param {string[]} lines
 * @param {import('../types').Of} of
 */
function shownBy(kind, lines, of) {
  if (kind === 'pair') return pair(of, linesOf(textOf(of.files.cert)).slice(5, 7));
  return of.shownBy(kind)?.(lines, of) ?? { more: [], sets: {} };
}

/** @type {import('../types').Command} */
export const command = {
  tell(lines, of) {
    const [, kind, number] = lines[0].split(' '), [mood, text] = KINDS[kind] ?? KINDS.partial;
    const from = lines[1].split(' ')[1], faulty = namesIn(lines[2]), found = shownBy(kind, lines.slice(3), of);
    const whole = from === undefined ? ['the whole file'] : ['what ', node(of.network, from), ' depends on'];
    const about = said(strong('Of whom it speaks: '), whole, '. ', strong('Who lies: '), nodes(of.network, faulty), '. Read both: they are what it is about.');
    const values = { kind: `${kind}${number ? ` ${number}` : ''}` };
    return { ...told({ ...WORDS.accepted, mood }, values, [said(text), about, found.more], { lying: faulty, ...found.sets }), view: { from, faulty } };
  },
};
