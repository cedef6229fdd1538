// All of it in short: what the questions say, shown with the certificates.
import { Questions, findAll } from '../asking/questions.js';
import { between, make } from '../drawing/elements.js';
import { nodes, shownParts } from '../drawing/names.js';
import { state } from '../state/state.js';
import { Saying } from '../words/saying.js';
import { summaryOf } from '../words/summary.js';

/** @typedef {import('../types').Asked} Asked */
/** @typedef {import('../types').End} End */
/** @typedef {import('../asking/questions.js').Found} Found */
/** @typedef {import('../words/summary.js').Sentence} Sentence */

/** @type {Record<string, string>} */
const MOODS = { good: 'good', bad: 'bad', warn: 'open' };

/**
 * Asks by the worker, question after question.
 * @param {Asked} asked
 * @param {(at: string) => void} begins
 */
async function run(asked, begins) {
  /** @type {End[]} */
  const ends = [];
  /** @type {import('../asking/questions.js').Ask} */
  const ask = async (steps, at) => {
    begins(at);
    const done = await state.asker.ask(steps, asked.about);
    ends.push(...Object.values(done).filter(Boolean));
    return done;
  };
  const questions = new Questions(ask, state.network, asked.budget, !!state.files.orgs);
  const found = await findAll(questions, state.network, asked.from || null, asked.isNow);
  return { ...tellSummary(found), ends, kept: questions.kept, painted: paintedOf(found) };
}

/** @param {Found} found */
function tellSummary(found) {
  const data = summaryOf(state.network, found), saying = new Saying(state.network, state.called), [first] = data.parts;
  const { mood, parts } = saying.sentence(data.lines.find((it) => it.line === 'fork'));
  const [head] = parts.map((part) => (typeof part === 'string' ? part : saying.name(part.text))).join('').split(/(?<=\.) /);
  if (data.parts.length === 1) return { mood: MOODS[mood], head, more: [linesShown(saying, [...data.lines, ...first.lines])] };
  const each = data.parts.flatMap((part, at) => [make('h4', {}, headingOf(found, at)), linesShown(saying, part.lines)]);
  return { mood: MOODS[mood], head, more: [linesShown(saying, data.lines), each] };
}

/**
 * Of several parts, which one this is.
 * @param {Found} found
 * @param {number} at
 */
function headingOf({ parts, networks }, at) {
  const own = parts[0].own ? 1 : 0;
  if (parts[at].own) return 'As your node sees it';
  return networks.length > 1 ? [`Network ${at + 1 - own} of ${parts.length - own}: `, nodes(state.network, parts[at].greatest)] : 'The network';
}

/**
 * @param {Saying} saying
 * @param {Sentence[]} sentences
 */
function linesShown(saying, sentences) {
  /** @param {{ mood: string, parts: import('../types').Part[] }} sentence */
  const shown = ({ mood, parts }) => make('span', { class: mood || null }, shownParts(state.network, parts));
  return make('dl', { class: 'summary' }, saying.lines(sentences).map(({ label, said }) => [make('dt', {}, label), make('dd', {}, between(said.map(shown), ' '))]));
}

/** @param {Found} found */
function paintedOf(found) {
  const { network } = state, { forks, parts } = found, pair = parts.map((part) => part.verdict).find((verdict) => verdict?.word === 'no');
  const { first, second } = ['yes', 'networks'].includes(forks.word) ? forks : pair ?? { first: undefined, second: undefined };
  const within = [...new Set(parts.flatMap((part) => part.view.keys))];
  return { greatest: [...new Set([...found.greatest, ...parts.flatMap((part) => part.greatest)])], first, second, within, down: network.down(), unknown: network.unknown() };
}

/** @type {import('../types').Command} */
export const command = { by: ['greatest', 'closure', 'intersect', 'blocks', 'available', 'vblocks', 'blocking', 'org-blocking', 'check'], takes: ['from', 'budget'], now: 'file', run };
