// What answers have in common: an answer's lines and what it is about become a mood (good, bad or open), a heading, what stands below it, and
// the sets that the picture paints.
import { namesIn, setsIn } from '../state/texts.js';
import { counted, filled } from '../words/saying.js';
import { SENTENCES } from '../words/sentences.js';
import { between, fold, listed, make, named, placed, said, strong } from './elements.js';
import { lies, node, nodes } from './names.js';
import { wish } from './wish.js';

/** @typedef {import('../state/network.js').Network} Network */
/** @typedef {import('../types').Inside} Inside */
/** @typedef {import('../types').Of} Of */
/** @typedef {import('../types').Painted} Painted */
/** @typedef {import('../types').Told} Told */
/** @typedef {import('../types').AnswerWords} AnswerWords */

export const MOST_LISTED = 60;
const { common: COMMON, sets: SETS } = SENTENCES.answers;

/**
 * @param {AnswerWords} words
 * @param {Record<string, string | number>} values
 * @param {Inside} more
 * @param {Painted} sets
 * @returns {Told}
 */
export const told = (words, values = {}, more = [], sets = {}) => ({ mood: words.mood, head: filled(words.head, values), more, sets });

/** @param {string} text */
export const upper = (text) => text[0].toUpperCase() + text.slice(1);
/** @param {number} count */
export const others = (count) => (count > 0 ? said(filled(COMMON['others-below'].said, { count })) : '');

/**
 * A sentence that is so while some lie, or while nobody does.
 * @param {Of} of
 * @param {string} text
 */
export const whileLying = (of, text) => (of.lying.length ? said(...lies(of.network, of.lying), text) : said(upper(text)));

/**
 * @param {string} units
 * @returns {Told}
 */
export const undecided = (units) => ({ ...told(COMMON.undecided, {}, [said(filled(COMMON.undecided.said, { units }))]), again: true });

/**
 * There is none, or none is known where quorum sets are not.
 * @param {{ network: Network }} of
 * @param {...Inside} more
 */
export function noQuorum({ network }, ...more) {
  const unknown = network.unknown().length;
  if (!unknown) return told(COMMON.none, {}, more);
  return told(COMMON['none-known'], {}, [said(filled(COMMON['none-known'].said, { count: counted(unknown, 'node') })), ...more]);
}

/**
 * Two quorums that share no node.
 * @param {Of} of
 * @param {string[]} lines
 * @returns {{ more: Inside[], sets: Painted }}
 */
export function pair({ network, greatest }, lines) {
  const [first, second] = lines.map(namesIn);
  const one = said(strong('One: '), nodes(network, first)), other = said(strong('The other: '), nodes(network, second));
  return { more: [one, other, ...apart(network, greatest, first, second)], sets: { first, second } };
}

/**
 * Of two quorums, one for which nobody else waits.
 * @param {Network} network
 * @param {string[]} greatest
 * @param {...string[]} both
 */
function apart(network, greatest, ...both) {
  const alone = both.find((keys) => keys.length && !keys.some((key) => network.named.has(key)));
  if (!alone) return [];
  return [said(placed(alone.length === 1 ? COMMON.apart.said : COMMON.apart.several, { nodes: nodes(network, alone) })), asAnother(network, greatest)];
}

/**
 * A button that asks the same as that node of the greatest quorum sees it which most name: without those on whom it does not depend.
 * @param {Network} network
 * @param {string[]} greatest
 */
function asAnother(network, greatest) {
  if (!greatest.length) return '';
  const key = network.mostNamed(greatest), button = make('button', { type: 'button' }, filled(COMMON['as-another'].said, { node: network.name(key) }));
  button.onclick = () => wish({ from: key });
  return make('p', {}, button);
}

/** @param {string} text */
const noOthers = (text) => said(filled(COMMON.whole.said, { text }));

/**
 * A list of sets of nodes, and how they read by organisation.
 * @param {AnswerWords} words
 * @param {string[]} lines
 * @param {Of} of
 */
export function tellSets(words, lines, { network }) {
  const sets = setsIn(lines);
  if (!sets.length) return told(SETS.none, { what: words.what });
  const smallest = sets[0].length, least = network.orgs.length ? network.byOrganisation(sets) : [];
  const more = [noOthers(filled(SETS.smallest.said, { text: words.said, count: counted(smallest, 'node') }))];
  if (least.length && smallest) {
    const rows = least.slice(0, MOST_LISTED).map((names) => between(names.map((name) => named(name)), ' and '));
    more.push(said(SETS['by-organisation'].said), listed('ol', rows));
    if (least.length > MOST_LISTED) more.push(said(filled(COMMON.others.said, { count: least.length - MOST_LISTED })));
  }
  const each = sets.slice(0, MOST_LISTED).map((keys) => (keys.length ? between(network.sorted(keys).map((key) => node(network, key))) : COMMON.nobody.said));
  more.push(fold(SETS.each.said, !least.length || sets.length <= 12, listed('ol', each), others(sets.length - MOST_LISTED)));
  return told(words, { count: counted(sets.length, words.what) }, more, { marked: sets[0], markedAs: words.marked });
}

/**
 * A list of sets of organisations and of nodes of none.
 * @param {AnswerWords} words
 * @param {string[]} lines
 * @param {Of} of
 */
export function tellOrgSets(words, lines, { network }) {
  const sets = setsIn(lines), orgs = new Map(network.orgs.map((org) => [`org:${org.id}`, org]));
  /** @param {string} text */
  const keyOf = (text) => text.replace(/^node:/, '');
  /** @param {string} text */
  const one = (text) => (orgs.has(text) ? named(orgs.get(text).name, orgs.get(text).id) : node(network, keyOf(text)));
  const rows = sets.slice(0, MOST_LISTED).map((texts) => (texts.length ? between(texts.map(one), ' and ') : COMMON.nobody.said));
  const marked = (sets[0] ?? []).flatMap((text) => orgs.get(text)?.keys ?? [keyOf(text)]);
  return told(words, { count: counted(sets.length, 'set') }, [noOthers(words.said), listed('ol', rows), others(sets.length - MOST_LISTED)], { marked, markedAs: words.marked });
}

/**
 * The command of a list: what it says, unless its budget was spent or there is no quorum; and what an accepted certificate of it shows.
 * @param {(lines: string[], of: Of) => Told} tell
 * @param {string} none
 * @returns {import('../types').Command}
 */
export const listCommand = (tell, none) => ({
  now: 'file',
  tell(lines, of) {
    const [, word, units] = lines[0].split(' ');
    if (word === 'unknown') return undecided(units);
    return of.greatest.length ? tell(lines, of) : noQuorum(of, said(none));
  },
  shown: (lines, of) => {
    const { more, sets } = tell(lines, of);
    return { more, sets };
  },
});
