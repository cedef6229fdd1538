// Which sentences of words/sentences.js the summary says, and of what. The report decides the same (tools/use/network_page/summary.py);
// tests/summary.py holds both together.
import { FORK_OF, distinct, inOrder, leastOf } from '../asking/questions.js';

/** @typedef {import('../state/network.js').Network} Network */
/** @typedef {import('../asking/questions.js').Found} Found */
/** @typedef {import('../asking/questions.js').FoundPart} FoundPart */
/** @typedef {import('../asking/questions.js').Together} Together */
/** @typedef {import('../types').Organisation} Organisation */
/** @typedef {{ line: string, say: string, [data: string]: any }} Sentence A line and which of its sentences, with what stands in it. */

/**
 * @param {string} line
 * @param {string} say
 * @param {object} data
 * @returns {Sentence}
 */
const says = (line, say, data = {}) => ({ line, say, ...data });

/**
 * @param {Network} network
 * @param {Found} found
 */
export function summaryOf(network, found) {
  return { lines: wholeLines(network, found), parts: found.parts.map((part) => partData(network, found, part)) };
}

/**
 * @param {Network} network
 * @param {Found} found
 */
function wholeLines(network, found) {
  /** @type {Sentence[]} */
  const lines = [];
  const without = network.orgs.filter((org) => !org.keys.length).map((org) => org.id), [{ own, greatest }] = found.parts;
  if (network.lost()) lines.push(says('orgs', 'lost', { lost: network.lost(), of: network.listed }));
  if (without.length) lines.push(says('orgs', 'without', { without }));
  if (own && !greatest.includes(own.key)) lines.push(says('speaks', network.sets.get(own.key) ? 'outside' : 'unknown', { node: own.key }));
  return [...lines, ...forkLines(network, found)];
}

/**
 * @param {Network} network
 * @param {Found} found
 */
function forkLines(network, { forks, networks }) {
  /** @type {Sentence[]} */
  const lines = [];
  const unknown = network.unknown(), { word, first, second, split } = forks;
  if (word === 'none') lines.push(says('fork', unknown.length ? 'none-known' : 'none'));
  else if (word === 'networks') lines.push(says('fork', word, { count: networks.length, first, second }));
  else lines.push(says('fork', word, word === 'yes' ? { first, second } : {}));
  if (split.length) lines.push(says('fork', 'split', { of: network.watchers().length, count: split.length, keys: split }));
  if (unknown.length) lines.push(says('fork', 'unknown', { count: unknown.length, named: unknown.filter((key) => network.named.has(key)).length }));
  return lines;
}

/**
 * @param {Network} network
 * @param {Found} found
 * @param {FoundPart} part
 */
function partData(network, found, part) {
  const lines = [...seenLines(network, found, part), ...liesLines(network, found, part), ...stopLines(found, part), ...nowLines(network, part), ...nodeLines(network, part)];
  const turns = part.turns.map((turn) => ({ org: turn.org.id, lies: turn.word, split: turn.split, stops: !turn.left.length, left: turn.left.length }));
  const stopping = found.isNow && part.down.length ? part.stoppingNow : part.stopping;
  const leaving = part.greatest.length ? part.turns.map((turn) => ({ org: turn.org.id, left: turn.left.length, then: turn.left.length ? thenOf(stopping, turn.org) : null })) : [];
  return { from: part.view.node, greatest: [...part.greatest].sort(), lines, turns, leaving };
}

/**
 * The sets that stop it once an organisation has left: those that stop it together with that one.
 * @param {Together} stopping
 * @param {Organisation} org
 */
function thenOf({ sets, most }, org) {
  const rest = inOrder(leastOf(distinct(sets.map((some) => some.filter((it) => it !== `org:${org.id}`)).filter((some) => some.length))));
  return most === null ? rest : most > 1 ? rest.filter((some) => some.length < most) : null;
}

/**
 * As one node sees it: of one's own, of each of several networks, and where the whole file is not decided.
 * @param {Network} network
 * @param {Found} found
 * @param {FoundPart} part
 */
function seenLines(network, found, { view, own, verdict }) {
  const node = own ? own.key : view.node;
  if (node === null || (!own && found.parts.length === 1 && ['no', 'none'].includes(found.forks.word))) return [];
  if (!verdict) return [says('seen', network.unknown().some((key) => view.keys.includes(key)) ? 'none-known' : 'none', { node })];
  return [says('seen', FORK_OF[verdict.word], { node, ...(verdict.word === 'no' ? { first: verdict.first, second: verdict.second } : {}) })];
}

/**
 * @param {Network} network
 * @param {Found} found
 * @param {FoundPart} part
 */
function liesLines(network, found, part) {
  if (!network.orgs.length) return [says('lies', 'unknown')];
  if (!part.orgs.length) return [says('lies', 'nowhere')];
  if (!part.greatest.length) return [says('lies', 'none')];
  if (part.verdict.word === 'no') return [says('lies', 'forked')];
  const { turns } = part, of = turns.length;
  /** @param {string} word */
  const by = (word) => turns.filter((turn) => turn.word === word).map((turn) => turn.org.id);
  /** @type {Sentence[]} */
  const lines = [];
  if (by('yes').length) lines.push(says('lies', by('yes').length === of && of > 1 ? 'each' : 'some', { count: by('yes').length, of, orgs: by('yes') }));
  for (const word of ['elsewhere', 'undecided']) if (by(word).length) lines.push(says('lies', word, { orgs: by(word) }));
  if (!lines.length) lines.push(says('lies', found.forks.word === 'no' ? 'nobody' : 'nobody-here', { of }));
  const split = turns.filter((turn) => turn.split.length).map((turn) => [turn.org.id, turn.split.length]);
  return split.length ? [...lines, says('lies', 'split', { of: network.watchers().length, orgs: split })] : lines;
}

/**
 * @param {Found} found
 * @param {FoundPart} part
 */
function stopLines(found, { stopping, nodeSets }) {
  if (!stopping || (!stopping.sets.length && stopping.most === null)) return [says('stop', 'none')];
  const lines = [setsLine('stop', stopping)];
  if (nodeSets && !found.isNow) lines.push(says('stop', 'nodes', { count: nodeSets.length, least: Math.min(...nodeSets.map((some) => some.length)) }));
  return lines;
}

/**
 * @param {string} line
 * @param {Together} together
 */
function setsLine(line, { sets, most }) {
  if (most !== null) return says(line, sets.length ? 'found' : 'open', { sets, most });
  return says(line, sets[0].length === 1 ? 'alone' : 'sets', { sets });
}

/**
 * Both margins: what the nodes that are down leave of it.
 * @param {Network} network
 * @param {FoundPart} part
 */
function nowLines(network, { view, down, stopped, stoppingNow }) {
  if (!network.hasMarks()) return [];
  if (!down.length) return [says('now', 'none')];
  const lines = [says('now', 'down', { count: down.length, of: view.keys.filter((key) => network.named.has(key)).length, keys: down })];
  if (stopped) return [...lines, says('now', 'stopped')];
  return stoppingNow ? [...lines, setsLine('now', stoppingNow)] : lines;
}

/**
 * @param {Network} network
 * @param {FoundPart} part
 */
function nodeLines(network, { own, greatest, turns }) {
  if (!own) return [];
  if (!greatest.includes(own.key)) return [says('node', network.sets.get(own.key) ? 'outside' : 'unknown', { node: own.key })];
  const lines = [says('node', 'inside', { node: own.key })], others = turns.filter((turn) => !turn.org.keys.includes(own.key));
  const stopped = others.filter((turn) => !turn.left.includes(own.key)).map((turn) => turn.org.id);
  if (stopped.length) lines.push(says('node', 'stopped', { orgs: stopped }));
  else if (others.length) lines.push(says('node', 'goes-on'));
  if (own.blocked.sets.length) lines.push(says('node', 'blocked', { sets: own.blocked.sets }));
  return lines;
}
