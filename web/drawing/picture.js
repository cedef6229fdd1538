// The picture of the network: organisations as boxes, each node as a circle with its name, painted by the sets of an answer.
import { make } from './elements.js';

/** @typedef {import('../state/network.js').Network} Network */
/** @typedef {import('../types').Painted} Painted */

// Above so many nodes of no organisation their circles have no names below them; above so many nodes there is no picture.
const MOST_CAPTIONS = 36, MOST_DRAWN = 3000;

// The sets that are painted, the first that has a node decides its circle: its class, the letter in it, and what both say.
/** @type {['lying' | 'silent' | 'first' | 'second' | 'greatest', string, string, string][]} */
const CIRCLES = [
  ['lying', 'lie', 'L', 'lies'],
  ['silent', 'still', '–', 'is silent'],
  ['first', 'one', '1', 'in one quorum of the two'],
  ['second', 'two', '2', 'in the other quorum of the two'],
  ['greatest', 'q', '', 'in the greatest quorum'],
];

/** Which sets paint a node. */
export class Paint {
  /** @param {Painted} sets */
  constructor(sets) {
    this.sets = new Map(CIRCLES.map(([name]) => [name, new Set(sets[name])]));
    this.marked = new Set(sets.marked);
    this.down = new Set(sets.down);
    this.unknown = new Set(sets.unknown);
    this.markedAs = sets.markedAs ?? '';
    this.within = sets.within ? new Set(sets.within) : null;
  }

  /** @param {string} key */
  circle(key) {
    const [kind, letter, says] = this.place(key);
    return this.down.has(key) ? [`${kind} down`, letter || '–', `${says}, down`] : [kind, letter, says];
  }

  /**
   * @param {string} key
   * @returns {[string, string, string]}
   */
  place(key) {
    for (const [name, kind, letter, says] of CIRCLES) if (this.sets.get(name).has(key)) return [kind, letter, says];
    if (this.unknown.has(key)) return ['n u', '?', 'of which the quorum set is not known'];
    return this.within && !this.within.has(key) ? ['x', '', 'outside of what is asked about'] : ['n', '', 'in no quorum'];
  }

  /** @param {string} key */
  says(key) {
    return this.circle(key)[2] + (this.marked.has(key) ? `, ${this.markedAs}` : '');
  }
}

/**
 * @param {string} kind
 * @param {string} letter
 * @param {boolean} ring
 */
const dot = (kind, letter, ring = false) => make('span', { class: `dot ${kind}${ring ? ' ring' : ''}`, 'aria-hidden': 'true' }, letter);

/**
 * The name of a node without that of the organisation in whose box it stands, cut in the middle if it is long.
 * @param {Network} network
 * @param {string} key
 */
function caption(network, key) {
  const org = network.orgOf.get(key)?.name;
  let name = network.name(key);
  if (org && name.startsWith(org) && name !== org) name = name.slice(org.length).replace(/^[\s\-_.:]+/, '') || name;
  return name.length <= 20 ? name : `${name.slice(0, 11)}…${name.slice(-8)}`;
}

/**
 * @param {Network} network
 * @param {Paint} paint
 * @param {string} key
 * @param {boolean} captioned
 */
function drawnNode(network, paint, key, captioned) {
  const [kind, letter] = paint.circle(key), name = network.name(key), says = paint.says(key);
  const shown = captioned ? make('span', { class: 'node' }, caption(network, key)) : make('span', { class: 'hidden' }, name);
  return make('li', { title: `${name}, ${key}: ${says}` }, dot(kind, letter, paint.marked.has(key)), shown, make('span', { class: 'hidden' }, `: ${says}`));
}

/**
 * @param {Network} network
 * @param {Paint} paint
 * @param {string} title
 * @param {string[]} keys
 * @param {boolean} captioned
 */
function drawnBox(network, paint, title, keys, captioned) {
  /** @param {string} key */
  const rank = (key) => ('nx'.includes(paint.place(key)[0][0]) ? 1 : 0);
  const shown = network.sorted(keys).sort((a, b) => rank(a) - rank(b));
  return make('div', { class: `org${captioned ? '' : ' rest'}` }, make('h3', { class: 'node' }, title), make('ul', {}, shown.map((key) => drawnNode(network, paint, key, captioned))));
}

/**
 * @param {Network} network
 * @param {Paint} paint
 */
function legend(network, paint) {
  const there = new Map(network.keys.map((key) => [paint.place(key)[0], paint.place(key)]));
  const rows = ['lie', 'still', 'one', 'two', 'q', 'n', 'n u', 'x'].filter((kind) => there.has(kind)).map((kind) => make('li', {}, dot(kind, there.get(kind)[1]), there.get(kind)[2]));
  if (network.keys.some((key) => paint.down.has(key))) rows.push(make('li', {}, dot('down', '–'), 'down, as the file marks it'));
  if (network.keys.some((key) => paint.marked.has(key))) rows.push(make('li', {}, dot('', '', true), paint.markedAs));
  return make('ul', { class: 'legend' }, rows);
}

/**
 * @param {Network} network
 * @param {Paint} paint
 * @returns {any[]}
 */
export function draw(network, paint) {
  if (network.keys.length > MOST_DRAWN) return [make('p', {}, `${network.keys.length} nodes are too many for a picture.`)];
  const boxes = network.orgs.filter((org) => org.keys.length).map((org) => drawnBox(network, paint, org.name, org.keys, true));
  const outside = network.outside(), title = network.orgs.length ? `Of no organisation: ${outside.length}` : 'Nodes';
  const rest = outside.length ? drawnBox(network, paint, title, outside, outside.length <= MOST_CAPTIONS) : null;
  return [boxes.length ? make('div', { class: 'orgs' }, boxes) : null, rest, legend(network, paint)].filter(Boolean);
}
