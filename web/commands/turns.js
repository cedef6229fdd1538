// Each organisation in turn: whether the network can fork if it lies, and whether it goes on if it falls silent. It is asked by two
// commands for each organisation, and each certificate is checked as always.
import { isAccepted } from '../drawing/answer.js';
import { named, placed, said, strong, table } from '../drawing/elements.js';
import { nodes } from '../drawing/names.js';
import { save } from '../drawing/saving.js';
import { noQuorum, told } from '../drawing/told.js';
import { base, state } from '../state/state.js';
import { linesOf, namesIn, textOf } from '../state/texts.js';
import { counted, filled } from '../words/saying.js';
import { SENTENCES } from '../words/sentences.js';

/** @typedef {import('../types').Done} Done */
/** @typedef {import('../types').Inside} Inside */
/** @typedef {import('../types').Organisation} Organisation */

const WORDS = SENTENCES.answers.turns;

/** @param {import('../state/network.js').Network} network */
export const asTurns = (network) => network.orgs.filter((org) => org.keys.length);

/**
 * The steps of the question, two of each organisation, and the check of what the first has made.
 * @param {import('../types').Asked} asked
 */
function steps({ from, budget }) {
  const seen = from ? [`--from=${from}`] : [], spent = budget ? [`--budget=${budget}`] : [];
  /**
   * @param {string} name
   * @param {string[]} faulty
   */
  const lying = (name, faulty) => [
    { name, words: ['intersect', 'config', 'made', ...faulty, ...seen, ...spent] },
    { name: `${name}, checked`, checks: name, words: ['check', 'config', 'cert'] },
  ];
  /** @param {Organisation} org */
  const silent = (org) => ({ name: `${org.id} silent`, words: ['blocks', 'config', `--set=${org.keys.join(',')}`, ...seen] });
  const each = asTurns(state.network).flatMap((org) => [...lying(`${org.id} lies`, [`--faulty=${org.keys.join(',')}`]), silent(org)]);
  return [...lying('nobody lies', []), ...each];
}

/**
 * Whether it can fork while some lie, and the certificate of that.
 * @param {string} name
 * @param {Done} done
 * @param {string} file
 * @returns {Inside}
 */
function turnLies(name, done, file) {
  const { network } = state, answer = done[name], lines = linesOf(textOf(answer.text)), accepted = isAccepted(done[`${name}, checked`]);
  const link = answer.cert.length ? [' ', save(WORDS.lies.certificate, file, answer.cert, 'link'), accepted ? '' : strong(WORDS.lies.refused, 'bad')] : [];
  if (answer.status === 0) return [strong(WORDS.lies.no, 'good'), link];
  if (answer.status === 1) return [strong(WORDS.lies.yes, 'bad'), placed(WORDS.lies.against, { first: nodes(network, namesIn(lines[1])), second: nodes(network, namesIn(lines[2])) }), link];
  return [answer.status === 2 ? WORDS.lies.unknown : filled(WORDS.lies.status, { status: answer.status }), link];
}

/**
 * Whether it goes on while an organisation is silent.
 * @param {Organisation} org
 * @param {Done} done
 * @param {string[]} greatest
 */
function turnSilent(org, done, greatest) {
  const answer = done[`${org.id} silent`], own = new Set(org.keys), rest = greatest.filter((key) => !own.has(key));
  if (answer.status === 0) return strong(WORDS.silent.stops, 'bad');
  if (answer.status !== 1) return filled(WORDS.lies.status, { status: answer.status });
  return filled(WORDS.silent.left, { left: namesIn(linesOf(textOf(answer.text))[1]).length, rest: rest.length });
}

/** @type {import('../types').Command['tellSteps']} */
function tellSteps(done, asked, greatest) {
  const { network } = state, orgs = asTurns(network);
  if (!orgs.length) return told(WORDS.none, {}, [said(WORDS.none.said)]);
  if (!greatest.length) return noQuorum({ network });
  const forks = orgs.filter((org) => done[`${org.id} lies`].status === 1).length, stops = orgs.filter((org) => done[`${org.id} silent`].status === 0).length;
  /** @param {number} count */
  const many = (count) => (count === 0 ? 'None' : count === orgs.length ? 'Each' : String(count));
  const rows = orgs.map((org, at) => [named(org.name, org.id), turnLies(`${org.id} lies`, done, `${base()}-lying-${at + 1}.cert`), turnSilent(org, done, greatest)]);
  const nobody = said(WORDS.each.said, turnLies('nobody lies', done, `${base()}-intersect.cert`));
  const whole = table(WORDS.table.label, WORDS.table.heads, rows, 'turns');
  const mood = forks || stops || done['nobody lies'].status === 1 ? 'bad' : asked.from ? 'open' : 'good';
  return told({ ...WORDS.each, mood }, { forks: many(forks), of: counted(orgs.length, 'organisation'), stops: many(stops).toLowerCase() }, [nobody, whole]);
}

/** @type {import('../types').Command} */
export const command = { by: ['intersect', 'blocks'], takes: ['from', 'budget'], now: 'file', steps, tellSteps };
