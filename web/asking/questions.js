// What the summary asks, question by question. The report asks the same (tools/use/network_page/findings.py); tests/summary.py holds both together.
import { sortedBy } from '../state/order.js';
import { bytesOf, linesOf, namesIn, setsIn, textOf } from '../state/texts.js';

/** @typedef {import('../types').End} End */
/** @typedef {import('../types').Step} Step */
/** @typedef {import('../types').Kept} Kept */
/** @typedef {import('../types').Organisation} Organisation */
/** @typedef {import('../state/network.js').Network} Network */
/** @typedef {(steps: Step[], at: string) => Promise<Record<string, End>>} Ask */
/** @typedef {{ node: string | null, keys: string[] }} Seen Whose view it is: of one node, or with no node the whole file. */
/** @typedef {{ word: string, first?: string[], second?: string[] }} Verdict */
/** @typedef {Verdict & { split: string[], whole?: Verdict }} Forks */
/** @typedef {{ sets: string[][], most: number | null }} Together All sets that do a thing, or those of at most so many. */
/** @typedef {{ org: Organisation, word: string | null, split: string[], left: string[] }} Turn */
/** @typedef {{ key: string, blocked: Together }} Own */
/**
 * @typedef {object} FoundPart
 * @property {Seen} view
 * @property {string[]} greatest
 * @property {Verdict} [verdict]
 * @property {Organisation[]} [orgs]
 * @property {Turn[]} [turns]
 * @property {Together} [stopping]
 * @property {Together | null} [stoppingNow]
 * @property {string[]} [down]
 * @property {boolean} [stopped]
 * @property {string[][] | null} [nodeSets]
 * @property {Own} [own]
 */
/**
 * @typedef {object} Found
 * @property {boolean} isNow
 * @property {Seen} whole
 * @property {string[]} [greatest]
 * @property {Set<string>} [validators]
 * @property {string[][]} [networks]
 * @property {FoundPart[]} [parts]
 * @property {Forks} [forks]
 */

// So many sets of organisations are asked about where their list is not whole. So many units are spent on that list, and on one of nodes, if no
// budget is given: a unit of the second takes longer.
const MOST_ASKED = 600, ORG_UNITS = 5000, NODE_UNITS = 1000;

/** A question that the program refused, with what it ended with. */
export class Refused extends Error {
  /**
   * @param {End} end
   * @param {string[]} words
   */
  constructor(end, words) {
    super(`${words.join(' ')}: status ${end.status} ${linesOf(textOf(end.text))[0] ?? ''}`);
    this.end = end;
    this.words = words;
  }
}

/** The module about one file of nodes. Each certificate is checked at once, and one that is not accepted ends the summary. */
export class Questions {
  /**
   * @param {Ask} ask
   * @param {Network} network
   * @param {string} budget
   * @param {boolean} hasOrgs
   * @param {Uint8Array | null} config
   * @param {string} prefix
   * @param {Kept[]} kept
   */
  constructor(ask, network, budget, hasOrgs, config = null, prefix = '', kept = []) {
    this.ask = ask;
    this.network = network;
    this.budget = budget;
    this.hasOrgs = hasOrgs;
    this.config = config;
    this.prefix = prefix;
    this.kept = kept;
  }

  /**
   * The same about another file of nodes.
   * @param {string} name
   * @param {string} text
   */
  on(name, text) {
    return new Questions(this.ask, this.network, this.budget, this.hasOrgs, bytesOf(text), `${this.prefix}${name}-`, this.kept);
  }

  /**
   * @param {Step[]} steps
   * @param {string} at
   */
  async run(steps, at) {
    const files = this.config ? { config: this.config } : {};
    return this.ask(steps.map((it) => ({ ...it, files })), at);
  }

  /**
   * @param {End} end
   * @param {string[]} words
   */
  linesOf(end, words) {
    if (end.status > 2 && end.status !== 9) throw new Refused(end, words);
    return linesOf(textOf(end.text));
  }

  /** @param {...string} words */
  async plain(...words) {
    const { answer } = await this.run([{ name: 'answer', words }], words[0]);
    return this.linesOf(answer, words);
  }

  /**
   * @param {string} name
   * @param {string[]} words
   * @param {...string} more
   */
  async searched(name, words, ...more) {
    const { answer, checked } = await this.run([{ name: 'answer', words }, { name: 'checked', checks: 'answer', words: ['check', 'config', 'cert', ...more] }], name);
    const lines = this.linesOf(answer, words);
    if (answer.status === 9) return { status: 2, lines };
    if (!(checked && (checked.status === 0 || checked.status === 2))) throw new Error(`the certificate of ${words.join(' ')} is not accepted`);
    this.kept.push({ name: this.prefix + name, cert: answer.cert, says: linesOf(textOf(checked.text))[0] });
    return { status: answer.status, lines };
  }

  /** @param {Seen} view */
  from(view) {
    return view.node === null ? [] : [`--from=${view.node}`];
  }

  /** @param {number} most */
  spent(most) {
    return [`--budget=${this.budget || most}`];
  }

  /** @param {Seen} view */
  async greatest(view) {
    return namesIn((await this.plain('greatest', 'config', ...this.from(view)))[0]);
  }

  /** @param {string} node */
  async closure(node) {
    return namesIn((await this.plain('closure', 'config', `--node=${node}`))[0]);
  }

  /**
   * The greatest quorum that goes on without the keys: nobody if they stop it.
   * @param {Seen} view
   * @param {string[]} keys
   */
  async left(view, keys) {
    return namesIn((await this.plain('blocks', 'config', `--set=${keys.join(',')}`, ...this.from(view)))[1]);
  }

  /**
   * @param {Seen} view
   * @param {string[]} keys
   */
  async unmet(view, keys) {
    return namesIn((await this.plain('available', 'config', `--set=${keys.join(',')}`, ...this.from(view)))[1]);
  }

  /**
   * @param {string} node
   * @param {string[]} keys
   */
  async vBlocks(node, keys) {
    return (await this.plain('vblocks', 'config', `--node=${node}`, `--set=${keys.join(',')}`))[0] === 'vblocks yes';
  }

  /**
   * Whether every two quorums share a node: yes, no with two that do not, or unknown.
   * @param {Seen} view
   * @param {Organisation | null} org
   * @returns {Promise<Verdict>}
   */
  async intersect(view, org = null) {
    const lying = org === null ? [] : this.hasOrgs ? ['--orgs=orgs', `--faulty-orgs=${org.id}`] : [`--faulty=${org.keys.join(',')}`];
    const name = `${view.node === null ? '' : 'from-'}${org === null ? 'intersect' : `faulty-${org.id}`}`;
    const { status, lines } = await this.searched(name, ['intersect', 'config', 'made', ...this.from(view), ...lying, ...this.spent(1000000)]);
    return { word: ['yes', 'no', 'unknown'][status], first: namesIn(lines[1]), second: namesIn(lines[2]) };
  }

  /**
   * All minimal blocking sets of organisations, and of nodes of none; null if they were not all found.
   * @param {Seen} view
   */
  async groups(view) {
    const { status, lines } = await this.searched('org-blocking', ['org-blocking', 'config', 'made', '--orgs=orgs', ...this.from(view), ...this.spent(ORG_UNITS)], '--orgs=orgs');
    return status === 0 ? setsIn(lines).filter((some) => some.length) : null;
  }

  /** @param {Seen} view */
  async nodeSets(view) {
    const { status, lines } = await this.searched('blocking', ['blocking', 'config', 'made', ...this.from(view), ...this.spent(NODE_UNITS)]);
    return status === 0 ? setsIn(lines) : null;
  }
}

/**
 * All that the summary says, of the file and of each view of it.
 * @param {Questions} questions
 * @param {Network} network
 * @param {string | null} node
 * @param {boolean} isNow
 * @returns {Promise<Found>}
 */
export async function findAll(questions, network, node, isNow) {
  /** @type {Seen} */
  const whole = { node: null, keys: network.keys };
  const now = network.down().length ? questions.on('now', network.nowText()) : null;
  /** @type {Found} */
  const found = { isNow: isNow && now !== null, whole };
  const asked = found.isNow ? now : questions;
  found.greatest = await asked.greatest(whole);
  found.validators = network.validators(found.greatest);
  found.networks = network.networks(found.greatest);
  found.parts = [];
  for (const view of await viewsOf(asked, network, found, node)) found.parts.push({ view, greatest: await asked.greatest(view) });
  found.forks = await forksOf(asked, network, found);
  for (const part of found.parts) await fillPart(questions, asked, now, network, found, part);
  if (node !== null) found.parts[0].own = await ownNode(asked, found.parts[0], node);
  return found;
}

/**
 * What the own node depends on, and if none is given, or the file is of several networks, what the node of each depends on that most name.
 * @param {Questions} questions
 * @param {Network} network
 * @param {Found} found
 * @param {string | null} node
 * @returns {Promise<Seen[]>}
 */
async function viewsOf(questions, network, found, node) {
  const several = found.networks.length > 1;
  /** @type {Seen[]} */
  const views = [];
  const at = several ? found.networks.map((keys) => network.mostNamed(keys)) : found.greatest.length && node === null ? [network.mostNamed(found.greatest)] : [];
  for (const key of node === null ? at : [node, ...at]) {
    if (views.some((view) => view.keys.includes(key))) continue;
    const keys = await questions.closure(key);
    views.push(keys.length === network.keys.length ? found.whole : { node: key, keys });
  }
  return views.length ? views : [found.whole];
}

/** @type {Record<string, string>} */
export const FORK_OF = { yes: 'no', no: 'yes', unknown: 'undecided' };

/**
 * Whether the validators can fork, while one organisation lies. A quorum of watchers alone is none of theirs: then they are asked about as
 * a file of their own.
 * @param {Questions} questions
 * @param {Network} network
 * @param {Found} found
 * @param {Organisation | null} org
 * @returns {Promise<Forks>}
 */
async function forksOf(questions, network, found, org = null) {
  if (!found.greatest.length && org === null) return { word: 'none', split: [] };
  const whole = await questions.intersect(found.whole, org);
  let verdict = whole;
  /** @type {string[]} */
  let split = [];
  if (verdict.word === 'no' && found.networks.length > 1 && org === null) return { ...verdict, word: 'networks', split, whole };
  if (verdict.word === 'no' && ![verdict.first, verdict.second].every((keys) => keys.some((key) => found.validators.has(key)))) {
    verdict = await questions.on('validators', network.validatorsText(found.validators, found.isNow)).intersect(found.whole, org);
    if (verdict.word === 'yes') split = await splitOff(questions, network, found, org);
  }
  return { ...verdict, word: FORK_OF[verdict.word], split, whole };
}

/**
 * The watchers that can agree with nobody but those that lie: all but these fail, and a slice is left.
 * @param {Questions} questions
 * @param {Network} network
 * @param {Found} found
 * @param {Organisation | null} org
 */
async function splitOff(questions, network, found, org) {
  const lying = new Set(org?.keys), unmet = new Set(await questions.unmet(found.whole, [...found.validators].filter((key) => !lying.has(key)).sort()));
  return network.keys.filter((key) => !found.validators.has(key) && !lying.has(key) && !unmet.has(key));
}

/**
 * @param {Questions} questions
 * @param {Questions} asked
 * @param {Questions | null} now
 * @param {Network} network
 * @param {Found} found
 * @param {FoundPart} part
 */
async function fillPart(questions, asked, now, network, found, part) {
  const { view } = part;
  if (part.greatest.length) part.verdict = view === found.whole ? found.forks.whole : await asked.intersect(view);
  const own = new Set(view.keys);
  part.orgs = network.orgs.filter((org) => org.keys.some((key) => own.has(key)));
  part.turns = [];
  for (const org of part.orgs) part.turns.push(await turnOf(asked, network, found, part, org));
  if (part.greatest.length || found.isNow) part.stopping = await stoppingOf(questions, part);
  part.down = network.down().filter((key) => own.has(key));
  if (part.down.length && part.stopping) {
    part.stopped = !(await now.greatest(view)).length;
    part.stoppingNow = part.stopped ? null : await stoppingOf(now, part);
  }
  if (part.greatest.length) part.nodeSets = await asked.nodeSets(view);
}

/**
 * @param {Questions} questions
 * @param {Network} network
 * @param {Found} found
 * @param {FoundPart} part
 * @param {Organisation} org
 * @returns {Promise<Turn>}
 */
async function turnOf(questions, network, found, part, org) {
  const left = await questions.left(part.view, org.keys);
  /** @type {string | null} */
  let word = null;
  /** @type {string[]} */
  let split = [];
  if (part.greatest.length && part.verdict.word !== 'no') {
    if (part.view !== found.whole) word = FORK_OF[(await questions.intersect(part.view, org)).word];
    if ((word === null || word === 'no') && !['yes', 'networks'].includes(found.forks.word)) {
      const file = await forksOf(questions, network, found, org);
      word = word === 'no' && file.word === 'yes' ? 'elsewhere' : file.word;
      split = file.split;
    }
  }
  return { org, word, split, left };
}

/**
 * The minimal sets that stop it, as texts: by the certified list, else by asking.
 * @param {Questions} questions
 * @param {FoundPart} part
 * @returns {Promise<Together>}
 */
async function stoppingOf(questions, part) {
  const sets = await questions.groups(part.view);
  if (sets) return { sets: inOrder(sets), most: null };
  return together(part.orgs, async (keys) => !(await questions.left(part.view, keys)).length);
}

/** @param {string[][]} sets */
export const inOrder = (sets) => sortedBy(sets.map((some) => [...some].sort()), (some) => [some.length, ...some]);
/** @param {string[][]} sets */
export const leastOf = (sets) => sets.filter((some) => !sets.some((other) => other.length < some.length && other.every((it) => some.includes(it))));
/** @param {string[][]} sets */
export const distinct = (sets) => [...new Map(sets.map((some) => [some.join(' '), some])).values()];

/**
 * The sets of some things of one size.
 * @template Thing
 * @param {Thing[]} things
 * @param {number} size
 * @param {number} from
 * @returns {Generator<Thing[]>}
 */
function* choices(things, size, from = 0) {
  if (size === 0) yield [];
  else for (let at = from; at <= things.length - size; at++) for (const rest of choices(things, size - 1, at + 1)) yield [things[at], ...rest];
}

/**
 * The minimal sets of organisations for whose keys a question holds, of one, of two and so on, as far as few enough are asked about.
 * @param {Organisation[]} orgs
 * @param {(keys: string[]) => Promise<boolean>} holds
 * @returns {Promise<Together>}
 */
async function together(orgs, holds) {
  /** @type {Organisation[][]} */
  const found = [];
  let asked = 0;
  for (let size = 1; size <= orgs.length; size++) {
    /** @type {Organisation[][]} */
    const left = [];
    for (const some of choices(orgs, size)) {
      if (!found.some((it) => it.every((org) => some.includes(org)))) left.push(some);
      if (asked + left.length > MOST_ASKED) return { sets: asTexts(found), most: size - 1 };
    }
    asked += left.length;
    for (const some of left) if (await holds([...new Set(some.flatMap((org) => org.keys))].sort())) found.push(some);
  }
  return { sets: asTexts(found), most: null };
}

/** @param {Organisation[][]} sets */
const asTexts = (sets) => inOrder(sets.map((some) => some.map((org) => `org:${org.id}`)));

/**
 * @param {Questions} questions
 * @param {FoundPart} part
 * @param {string} node
 * @returns {Promise<Own>}
 */
async function ownNode(questions, part, node) {
  const others = part.orgs.filter((org) => !org.keys.includes(node));
  return { key: node, blocked: await together(others, (keys) => questions.vBlocks(node, keys)) };
}
