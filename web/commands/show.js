// What is in the file of nodes.
import { listed, placed, said } from '../drawing/elements.js';
import { node } from '../drawing/names.js';
import { MOST_LISTED, others, told } from '../drawing/told.js';
import { counted, filled } from '../words/saying.js';
import { SENTENCES } from '../words/sentences.js';

const WORDS = SENTENCES.answers.show;

/**
 * What is odd in a quorum set.
 * @param {string[]} words
 * @param {import('../state/network.js').Network} network
 */
function finding(words, network) {
  const where = words[2] === '.' ? WORDS.places.own : filled(WORDS.places.inner, { place: words[2] }), who = node(network, words[1]);
  if (words[0] === 'repeated') return placed(WORDS.repeated, { node: who, where, other: node(network, words[3]) });
  return placed(WORDS.threshold, { node: who, where, threshold: words[3], entries: `${words[4]} ${words[4] === '1' ? 'entry' : 'entries'}` });
}

/** @type {import('../types').Command} */
export const command = {
  tell(lines, of) {
    const [there, entries, unset] = lines.slice(0, 3).map((line) => line.split(' ')[1]);
    const watchers = of.network.keys.length - of.network.named.size, odd = lines.slice(3).map((line) => finding(line.split(' '), of.network));
    const size = said(filled(WORDS.size.said, { entries, unset, watchers })), words = { ...WORDS.size, ...(odd.length ? WORDS.odd : WORDS.even) };
    const rows = odd.length ? [listed('ul', odd.slice(0, MOST_LISTED)), others(odd.length - MOST_LISTED)] : [];
    return told(words, { count: counted(Number(there), 'node') }, [size, said(words.said), ...rows]);
  },
};
