// How what stands in a sentence is put into words: texts, and organisations and nodes as `org:` with an id and `node:` with a key in an
// object. The report does the same (tools/use/network_page/sentences.py); tests/summary.py holds both together.
import { natural, sortedBy } from '../state/order.js';
import { SENTENCES } from './sentences.js';

/** @typedef {import('../state/network.js').Network} Network */
/** @typedef {import('../types').Part} Part */
/** @typedef {import('./summary.js').Sentence} Sentence */

// So many nodes are named one by one, more of them by their organisations; so many sets one by one, more of them by their number.
const MOST_NAMED = 12, MOST_SETS = 30;
/** @type {Record<string, Record<string, any>>} */
const SUMMARY = SENTENCES.summary;

/**
 * @param {number} number
 * @param {string} what
 */
export const counted = (number, what) => `${number} ${what}${number === 1 ? '' : 's'}`;

/**
 * A text with its places in braces filled.
 * @param {string} text
 * @param {Record<string, string | number>} values
 */
export const filled = (text, values) => text.replace(/\{(\w+)\}/g, (_, name) => String(values[name]));

/**
 * @param {Part[][]} parts
 * @param {string} sign
 * @returns {Part[]}
 */
const joined = (parts, sign) => parts.flatMap((part, at) => (at ? [sign, ...part] : part));

export class Saying {
  /**
   * @param {Network} network
   * @param {Record<string, string>} files
   */
  constructor(network, files) {
    this.network = network;
    this.files = files;
    this.byId = new Map(network.orgs.map((org) => [`org:${org.id}`, org]));
  }

  /**
   * The lines in order, each with its label and its sentences: a mood and the parts of a text.
   * @param {Sentence[]} sentences
   */
  lines(sentences) {
    const names = [...new Set(sentences.map((it) => it.line))];
    return names.map((line) => ({ label: SUMMARY[line].label, said: sentences.filter((it) => it.line === line).map((it) => this.sentence(it)) }));
  }

  /**
   * A sentence: its mood, and the parts of its text.
   * @param {Sentence} data
   * @returns {{ mood: string, parts: Part[] }}
   */
  sentence(data) {
    const [mood, text] = /** @type {[string, string]} */ (SUMMARY[data.line][data.say]);
    const parts = text.split(/\{([^}]*)\}/).flatMap((part, at) => (at % 2 ? this.put(part, data) : [part]));
    return { mood, parts: parts.filter((part) => part !== '') };
  }

  /**
   * What stands in a place.
   * @param {string} place
   * @param {Sentence} data
   * @returns {Part[]}
   */
  put(place, data) {
    const [name, how] = place.split('|'), value = data[name];
    switch (how) {
      case 'file': return [this.files[name]];
      case 'node': return [{ text: `node:${value}` }];
      case 'nodes': return typeof value === 'number' ? [counted(value, 'node')] : nodesSaid(this.network, value);
      case 'networks': return [counted(value, 'network')];
      case 'watchers': return [counted(value, 'watcher')];
      case 'validators': return [counted(value, 'validator')];
      case 'organisations': return [counted(value, 'organisation')];
      case 'sets_of': return [counted(value, 'set')];
      case 'orgs': return joined(value.map((/** @type {string} */ id) => [{ text: `org:${id}` }]), ', ');
      case 'counts': return joined(value.map((/** @type {[string, number]} */ [id, number]) => [{ text: `org:${id}` }, ` (${number})`]), ', ');
      case 'sets': return this.sets(value);
      default: return [String(value)];
    }
  }

  /**
   * By which organisations and nodes are sorted.
   * @param {string} text
   */
  order(text) {
    return [natural(this.name(text)), text];
  }

  /** @param {string} text */
  name(text) {
    return this.byId.get(text)?.name ?? this.network.name(text.slice(text.indexOf(':') + 1));
  }

  /**
   * All of them by name up to some tens: so many that are just any so many of some are in few words.
   * @param {string[][]} sets
   * @returns {Part[]}
   */
  sets(sets) {
    /** @type {Map<number, string[][]>} */
    const sizes = new Map();
    /** @type {Part[][]} */
    const parts = [];
    for (const some of sets) sizes.set(some.length, [...(sizes.get(some.length) ?? []), some]);
    let left = MOST_SETS;
    for (const [size, group] of sortedBy(sizes, ([number]) => [number])) {
      const every = sortedBy(new Set(group.flat()), (text) => this.order(text));
      if (group.length === outOf(every.length, size)) {
        parts.push(this.anyOf(every, size));
      } else if (group.length <= left) {
        left -= group.length;
        const rows = sortedBy(group, (some) => sortedBy(some.map((text) => this.order(text)), (it) => it));
        parts.push([...joined(rows.map((some) => this.group(some)), ', or '), ' together']);
      } else {
        parts.push([`${counted(group.length, 'set')} of ${size}`]);
      }
    }
    return [sets.length > 1 ? `${sets.length} sets: ` : '', ...joined(parts, '; or ')];
  }

  /**
   * @param {string[]} every
   * @param {number} size
   * @returns {Part[]}
   */
  anyOf(every, size) {
    const names = joined(every.map((text) => [{ text }]), ', ');
    if (every.length === size) return [...this.group(every), size === 1 ? ' alone' : ' together'];
    return size === 1 ? ['each of ', ...names, ' alone'] : [`any ${size} of these ${every.length} together: `, ...names];
  }

  /**
   * @param {string[]} some
   * @returns {Part[]}
   */
  group(some) {
    return joined(sortedBy(some, (text) => this.order(text)).map((text) => [{ text }]), ' and ');
  }
}

/**
 * How many sets of one size there are out of some things.
 * @param {number} things
 * @param {number} size
 */
function outOf(things, size) {
  let count = 1;
  for (let at = 1; at <= size; at++) count = count * (things - size + at) / at;
  return Math.round(count);
}

/**
 * Nodes by their names, or if they are many by their organisations.
 * @param {Network} network
 * @param {string[]} keys
 * @returns {Part[]}
 */
export function nodesSaid(network, keys) {
  if (!keys.length) return ['nobody'];
  if (keys.length <= MOST_NAMED) return joined(network.sorted(keys).map((key) => [{ text: `node:${key}` }]), ', ');
  const own = new Set(keys);
  /** @type {Part[][]} */
  const parts = [];
  for (const org of network.orgs) {
    const held = org.keys.filter((key) => own.has(key) && network.orgOf.get(key) === org);
    if (held.length) parts.push([held.length === org.keys.length ? 'all of ' : `${held.length} of `, { text: `org:${org.id}` }]);
  }
  const outside = keys.filter((key) => !network.orgOf.has(key)).length;
  if (outside && parts.length) parts.push([`${outside} of no organisation`]);
  return [counted(keys.length, 'node'), ...(parts.length ? [' (', ...joined(parts, ', '), ')'] : [])];
}
