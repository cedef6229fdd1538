// The names of a network: keys with the names that the file gives them, organisations with their keys, and quorum sets. Nothing is
// decided by this: an answer is the module's, which reads the bytes itself. What is no such file gives an empty network.
import { least, natural, sortedBy } from './order.js';

/** @typedef {import('../types').FileNode} FileNode */
/** @typedef {import('../types').Organisation} Organisation */
/** @typedef {import('../types').QuorumSet} QuorumSet */

const MOST_LETTERS = 60;
/** @param {string} sign */
const escapeOf = (sign) => { const at = sign.codePointAt(0), digits = at.toString(16); return at < 0x10000 ? `\\u${digits.padStart(4, '0')}` : `\\u{${digits}}`; };
/**
 * A name as it is shown: short, and with an escape for each sign that turns or hides what stands beside it.
 * @param {string} name
 */
export const tidy = (name) => [...name].slice(0, MOST_LETTERS).join('').replace(/[\p{Cc}\p{Cf}\p{Cs}\p{Co}\p{Zl}\p{Zp}]/gu, escapeOf).trim();
/**
 * @param {unknown} it
 * @returns {it is string}
 */
const isText = (it) => typeof it === 'string' && tidy(it) !== '';
/**
 * @param {unknown} it
 * @returns {any[]}
 */
const listOf = (it) => (Array.isArray(it) ? it : []);
// What is longer than a file of nodes or organisations may be is not read for names.
const MOST_FILE = 16777216, MOST_GROUPS = 2000;
/** @param {string} key */
const short = (key) => (key.length <= 12 ? key : `${key.slice(0, 5)}…${key.slice(-4)}`);

/**
 * The tree of a text in JSON, or null.
 * @param {Uint8Array} bytes
 * @returns {any}
 */
function tree(bytes) {
  if (bytes.length > MOST_FILE) return null;
  try {
    return JSON.parse(new TextDecoder().decode(bytes));
  } catch {
    return null;
  }
}

/**
 * The keys that stand in a quorum set, at most so deep.
 * @param {QuorumSet | null | undefined} set
 * @param {Set<string>} keys
 * @returns {Set<string>}
 */
function mentioned(set, keys = new Set(), depth = 0) {
  if (!set || depth > 40) return keys;
  for (const key of listOf(set.validators)) if (isText(key)) keys.add(key);
  for (const inner of listOf(set.innerQuorumSets)) mentioned(inner, keys, depth + 1);
  return keys;
}

/**
 * The keys to which steps lead from one, itself among them.
 * @param {string} start
 * @param {Map<string, string[]>} after
 */
function reached(start, after) {
  const found = new Set([start]), waiting = [start];
  while (waiting.length) for (const key of after.get(waiting.pop())) if (!found.has(key)) waiting.push(key) && found.add(key);
  return found;
}

/**
 * A quorum set with the same entries and one more wanted.
 * @param {QuorumSet} set
 */
const never = (set) => ({ ...set, threshold: 1 + listOf(set.validators).length + listOf(set.innerQuorumSets).length });

export class Network {
  /**
   * @param {Uint8Array | null | undefined} config
   * @param {Uint8Array | null | undefined} orgs
   */
  constructor(config, orgs) {
    /** @type {FileNode[]} */
    this.nodes = listOf(config && tree(config)).filter((it) => it && isText(it.publicKey));
    /** @type {Map<string, QuorumSet | null | undefined>} */
    this.sets = new Map(this.nodes.map((it) => [it.publicKey, it.quorumSet]));
    this.mentions = new Map([...this.sets].map(([own, set]) => [own, mentioned(set)]));
    this.named = this.howOftenNamed();
    this.keys = [...new Set([...this.sets.keys(), ...[...this.mentions.values()].flatMap((some) => [...some])])].sort();
    this.names = this.namesOf(this.nodes);
    this.hasOrgsFile = !!orgs;
    this.listed = 0;
    /** @type {Organisation[]} */
    this.orgs = orgs ? this.read(orgs) : this.byDomain(this.nodes);
    /** @type {Map<string, Organisation>} */
    this.orgOf = new Map();
    for (const org of this.orgs) for (const key of org.keys) if (!this.orgOf.has(key)) this.orgOf.set(key, org);
  }

  // Of each key that stands in another node's quorum set, in how many of them. The other nodes are watchers: nobody waits for them.
  howOftenNamed() {
    /** @type {Map<string, number>} */
    const often = new Map();
    for (const [own, some] of this.mentions) for (const key of some) if (key !== own) often.set(key, (often.get(key) ?? 0) + 1);
    return often;
  }

  watchers() {
    return this.keys.filter((key) => !this.named.has(key));
  }

  /**
   * The nodes that others name; where none of those can agree on anything, all.
   * @param {string[]} greatest
   * @returns {Set<string>}
   */
  validators(greatest) {
    return new Set(greatest.some((key) => this.named.has(key)) ? this.named.keys() : this.keys);
  }

  // The nodes without a quorum set: they have none, or it is not known.
  unknown() {
    return this.keys.filter((key) => !this.sets.get(key));
  }

  // Whether the file says of its nodes which are down.
  hasMarks() {
    return this.nodes.some((it) => typeof it.isValidating === 'boolean' || typeof it.active === 'boolean');
  }

  // The nodes that others name and the file marks as down; a watcher need not validate.
  down() {
    return this.nodes.filter((it) => this.named.has(it.publicKey) && (it.isValidating === false || it.active === false)).map((it) => it.publicKey).sort();
  }

  // How many validators of the file of organisations are no nodes.
  lost() {
    return this.hasOrgsFile ? this.listed - this.orgOf.size : 0;
  }

  /**
   * The key of these that most quorum sets name.
   * @param {Iterable<string>} keys
   */
  mostNamed(keys) {
    /** @param {string} key */
    const often = (key) => this.named.get(key) ?? 0;
    return [...keys].sort().reduce((best, key) => (often(key) > often(best) ? key : best));
  }

  /**
   * The parts of a greatest quorum that depend on nobody outside of them, each a quorum: the sinks of who names whom. A watcher that waits
   * for itself alone is none, where others are validators.
   * @param {string[]} greatest
   * @returns {string[][]}
   */
  networks(greatest) {
    const left = new Set(greatest), after = new Map([...left].map((key) => [key, [...this.mentions.get(key)].filter((it) => left.has(it))]));
    const before = new Map([...left].map((key) => [key, /** @type {string[]} */ ([])])), found = [];
    for (const [key, others] of after) for (const other of others) before.get(other).push(key);
    while (left.size) {
      let at = least(left), inside, apart;
      do {
        inside = reached(at, after);
        const back = reached(at, before);
        apart = [...inside].filter((key) => !back.has(key));
        if (apart.length) at = least(apart);
      } while (apart.length);
      found.push([...inside].sort());
      for (const key of reached(at, before)) left.delete(key);
    }
    const validators = this.validators(greatest);
    return sortedBy(found.filter((keys) => keys.some((key) => validators.has(key))), (keys) => keys);
  }

  /**
   * The validators as a configuration of their own: they depend on nobody else.
   * @param {Set<string>} validators
   * @param {boolean} isNow
   */
  validatorsText(validators, isNow) {
    return this.textOf(validators, isNow ? this.down() : []);
  }

  // The configuration in which the nodes that are down have thresholds that nobody meets, so no quorum has them.
  nowText() {
    return this.textOf(this.sets, this.down());
  }

  /**
   * @param {{ has: (key: string) => boolean }} keys
   * @param {string[]} down
   */
  textOf(keys, down) {
    /** @param {FileNode} it */
    const set = (it) => (down.includes(it.publicKey) && it.quorumSet ? never(it.quorumSet) : it.quorumSet || null);
    return JSON.stringify(this.nodes.filter((it) => keys.has(it.publicKey)).map((it) => ({ publicKey: it.publicKey, quorumSet: set(it) })));
  }

  /**
   * What each key is called: its name if it has one of its own, with the key's ends if two have the same.
   * @param {FileNode[]} nodes
   */
  namesOf(nodes) {
    const given = new Map(nodes.filter((it) => isText(it.name)).map((it) => [it.publicKey, tidy(it.name)]));
    const often = new Map();
    for (const name of given.values()) often.set(name, (often.get(name) ?? 0) + 1);
    /** @param {string} key */
    const name = (key) => (!given.has(key) ? short(key) : often.get(given.get(key)) === 1 ? given.get(key) : `${given.get(key)} (${short(key)})`);
    return new Map(this.keys.map((key) => [key, name(key)]));
  }

  /**
   * @param {Uint8Array} orgs
   * @returns {Organisation[]}
   */
  read(orgs) {
    const own = new Set(this.keys), given = listOf(tree(orgs)).filter((it) => it && isText(it.id));
    this.listed = new Set(given.flatMap((it) => listOf(it.validators))).size;
    const called = given.map((it) => tidy([it.name, it.homeDomain, it.id].find(isText)));
    /** @param {string} name */
    const often = (name) => called.filter((it) => it === name).length;
    return given.map((it, at) => ({
      id: it.id,
      name: often(called[at]) === 1 ? called[at] : `${called[at]} (${short(tidy(it.id))})`,
      domain: isText(it.homeDomain) ? tidy(it.homeDomain) : '',
      keys: [...new Set(listOf(it.validators))].filter((key) => own.has(key)).sort(),
    }));
  }

  /**
   * Without a file of organisations: the nodes that quorum sets name, by the home domain that each says of itself.
   * @param {FileNode[]} nodes
   * @returns {Organisation[]}
   */
  byDomain(nodes) {
    /** @type {Map<string, string[]>} */
    const domains = new Map();
    for (const it of nodes) {
      if (!isText(it.homeDomain) || !this.named.has(it.publicKey)) continue;
      const domain = tidy(it.homeDomain);
      domains.set(domain, [...(domains.get(domain) ?? []), it.publicKey]);
    }
    /** @param {string} domain */
    const quoted = (domain) => encodeURIComponent(domain).replace(/[!*'()]/g, (sign) => `%${sign.charCodeAt(0).toString(16).toUpperCase()}`);
    /**
     * @param {string} domain
     * @param {number} at
     */
    const id = (domain, at) => (quoted(domain).length <= 128 ? quoted(domain) : `domain-${at + 1}`);
    return [...domains.keys()].sort().map((domain, at) => ({ id: id(domain, at), name: domain, domain: '', keys: domains.get(domain).sort() }));
  }

  outside() {
    return this.keys.filter((key) => !this.orgOf.has(key));
  }

  /** @param {string} key */
  name(key) {
    return this.names.get(key) ?? short(key);
  }

  /**
   * In the order of their names, as a reader looks them up.
   * @param {Iterable<string>} keys
   */
  sorted(keys) {
    return sortedBy(keys, (key) => [natural(this.name(key)), key]);
  }

  /**
   * The least sets of organisations, and of nodes of none, that hold one of the sets of nodes; none if they are too many.
   * @param {string[][]} sets
   */
  byOrganisation(sets) {
    /** @type {Map<string, Set<string>>} */
    const whole = new Map();
    for (const keys of sets) {
      const names = [...new Set(keys.map((key) => this.orgOf.get(key)?.name ?? this.name(key)))].sort();
      whole.set(names.join('\0'), new Set(names));
    }
    if (whole.size > MOST_GROUPS) return [];
    const all = [...whole.values()].sort((a, b) => a.size - b.size);
    /** @type {Set<string>[]} */
    const fewest = [];
    for (const one of all) if (!fewest.some((other) => [...other].every((name) => one.has(name)))) fewest.push(one);
    return fewest.map((it) => [...it]);
  }
}

/**
 * What a file is by its first bytes, to put it where it belongs: nodes, organisations, a certificate or a script.
 * @param {Uint8Array} bytes
 * @returns {'config' | 'orgs' | 'cert' | 'script'}
 */
export function kindOf(bytes) {
  const start = new TextDecoder().decode(bytes.subarray(0, 200));
  if (start.startsWith('fbas-cert ')) return 'cert';
  if (/^\s*(\[|\{)/.test(start)) {
    const first = listOf(tree(bytes))[0];
    return first && !first.publicKey && first.id !== undefined ? 'orgs' : 'config';
  }
  return /^(threshold|add|drop|declare|retire) /.test(start) ? 'script' : 'cert';
}
