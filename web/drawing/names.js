// Nodes and organisations as they are shown, by their names.
import { nodesSaid } from '../words/saying.js';
import { between, named } from './elements.js';

/** @typedef {import('../state/network.js').Network} Network */
/** @typedef {import('../types').Part} Part */
/** @typedef {import('../types').Inside} Inside */

/**
 * @param {Network} network
 * @param {string} key
 */
export const node = (network, key) => named(network.name(key), key);

/**
 * Parts of a text as they are shown, organisations and nodes by their names.
 * @param {Network} network
 * @param {Part[]} parts
 * @returns {Inside[]}
 */
export function shownParts(network, parts) {
  const orgs = new Map(network.orgs.map((org) => [`org:${org.id}`, org]));
  return parts.map((part) => {
    if (typeof part === 'string') return part;
    const org = orgs.get(part.text);
    return org ? named(org.name, org.id) : node(network, part.text.slice(part.text.indexOf(':') + 1));
  });
}

/**
 * Nodes by their names, or if they are many by their organisations.
 * @param {Network} network
 * @param {string[]} keys
 */
export const nodes = (network, keys) => shownParts(network, nodesSaid(network, keys));

/**
 * Who lies: whole organisations by their names, and the other nodes.
 * @param {Network} network
 * @param {string[]} lying
 * @returns {Inside[]}
 */
export function lies(network, lying) {
  const own = new Set(lying), orgs = network.orgs.filter((org) => org.keys.length && org.keys.every((key) => own.has(key)));
  const rest = lying.filter((key) => !orgs.some((org) => org.keys.includes(key)));
  const who = [...orgs.map((org) => named(org.name)), ...(rest.length ? [nodes(network, rest)] : [])];
  return ['If ', between(who, ' and '), orgs.length + rest.length === 1 ? ' lies' : ' lie', ', '];
}
