// A question as it is asked of the worker: its words, its steps, and what its answer says.
import { tellRefusal } from '../drawing/refusal.js';
import { QUESTIONS } from '../commands/table.js';
import { state } from '../state/state.js';
import { bytesOf, linesOf, namesIn, sha256, textOf } from '../state/texts.js';
import { Refused } from './questions.js';
import { trialText } from './trial.js';

/** @typedef {import('../types').Asked} Asked */
/** @typedef {import('../types').Done} Done */
/** @typedef {import('../types').Question} Question */
/** @typedef {import('../types').Step} Step */
/** @typedef {import('../types').Told} Told */
/** @typedef {import('../types').View} View */
/** @typedef {{ asked: Asked, done: Done, found: Told, digest: string | null }} Answered */

/** @param {string} word */
export const questionOf = (word) => QUESTIONS.find((it) => it.word === word);

/**
 * Whether the module has the command, or all commands by which a question is asked.
 * @param {Question} row
 * @returns {boolean}
 */
export const isThere = (row) => (row.by ? row.by.every((it) => isThere(questionOf(it))) : state.usage.has(row.usage));

/** @param {Question} row */
export const isTrial = (row) => row.files[0] === 'N';

/** The organisations' file, or one made of the home domains. */
export const orgsBytes = () => state.files.orgs ?? bytesOf(JSON.stringify(state.network.orgs.map((org) => ({ id: org.id, validators: org.keys }))));

/**
 * What a list shows whose certificate was accepted, by its kind.
 * @param {string} kind
 */
const shownBy = (kind) => QUESTIONS.find((it) => it.makes?.all === kind)?.shown;

/**
 * Whether the organisations belong to the question itself: of a command that needs them, and of a certificate about them.
 * @param {Question} row
 */
export function asksByOrgs(row) {
  if (row.needs.includes('orgs')) return true;
  if (row.word !== 'check' || !row.options.includes('orgs') || !state.files.cert) return false;
  const kind = /^kind (?:partial-)?([\w-]+)$/m.exec(textOf(state.files.cert.subarray(0, 1 << 20)))?.[1];
  return QUESTIONS.some((it) => it.needs.includes('orgs') && it.makes?.all === kind);
}

/** @param {Question} row */
const checkWords = (row) => ['check', 'config', 'cert', ...(row.needs.includes('orgs') ? ['--orgs=orgs'] : [])];

/**
 * What a question lacks, if anything.
 * @param {Asked} asked
 */
export function missing({ words, trial, about }) {
  if (trial) return null;
  if (!about.config) return 'Give the file of nodes first, or try the example network.';
  if (words.includes('cert') && !about.cert) return 'Give the certificate or proof that is to be checked.';
  return null;
}

/**
 * The words that say as whom it is asked and who lies: of a certificate those that it says, of a split also the set.
 * @param {Asked} asked
 * @param {View | null} view
 */
function viewWords(asked, view) {
  if (view) return [...(view.from ? [`--from=${view.from}`] : []), ...(view.faulty.length ? [`--faulty=${view.faulty.join(',')}`] : [])];
  if (asked.row.silent !== false || !asked.set.length) return asked.common;
  return [...asked.common.filter((it) => !/^--(faulty|orgs|faulty-orgs)=/.test(it)), `--faulty=${[...new Set([...asked.set, ...asked.lying])].join(',')}`];
}

/**
 * The greatest quorum, and the nodes that are asked about if that is not the whole file.
 * @param {Asked} asked
 * @param {View | null} view
 */
async function seen(asked, view) {
  const from = view ? view.from : asked.from, steps = [{ name: 'greatest', words: ['greatest', 'config', ...viewWords(asked, view)] }];
  if (from) steps.push({ name: 'closure', words: ['closure', 'config', `--node=${from}`] });
  const { greatest, closure } = await state.asker.ask(steps, { config: asked.about.config, orgs: asked.about.orgs });
  /** @param {import('../types').End} end */
  const names = (end) => (end.status ? [] : namesIn(linesOf(textOf(end.text))[0]));
  return { greatest: names(greatest), within: closure ? names(closure) : null };
}

/** @type {Record<string, string>} */
export const PHASES = { answer: 'Answering', checked: 'Checking the certificate' };

/**
 * What is asked of the module, step by step.
 * @param {Asked} asked
 * @returns {Step[]}
 */
function stepsOf(asked) {
  if (asked.row.steps) return asked.row.steps(asked);
  const answer = { name: 'answer', words: asked.words };
  if (!asked.makes) return [answer];
  const over = asked.trial ? { config: bytesOf(trialText(Number(asked.words[1]))) } : {};
  return [answer, { name: 'checked', checks: 'answer', words: checkWords(asked.row), files: over }];
}

/**
 * What the answer says, once the greatest quorum of what it is about is known.
 * @param {Asked} asked
 * @param {Done} done
 * @returns {Promise<Told>}
 */
async function shownAs(asked, done) {
  const { row } = asked;
  if (row.steps) {
    const about = await seen(asked, { from: asked.from, faulty: [] });
    return { ...row.tellSteps(done, asked, about.greatest), painted: about };
  }
  const { answer } = done, lines = linesOf(textOf(answer.text));
  const of = { network: state.network, files: asked.about, lying: asked.lying, node: asked.node, from: asked.from, greatest: /** @type {string[]} */ ([]), shownBy };
  if (asked.trial && answer.status <= 2) return row.tell(lines, of);
  const view = row.word === 'check' && answer.status <= 2 ? row.tell(lines, of).view : null;
  const about = asked.about.config ? await seen(asked, view) : { greatest: [], within: null };
  if (answer.status > 2) return { ...tellRefusal(answer.status, lines), painted: about };
  const found = row.tell(lines, { ...of, greatest: about.greatest }), lie = row.silent === false;
  return { ...found, painted: { ...about, lying: lie ? [...asked.set, ...asked.lying] : asked.lying, silent: lie ? [] : asked.set, ...found.sets } };
}

/**
 * Asks a question and says what came of it: what the steps ended with, what the answer says, and the certificate's digest.
 * @param {Asked} asked
 * @param {(phase: string) => void} begins
 * @returns {Promise<Answered>}
 */
export async function answerTo(asked, begins) {
  if (asked.row.run) return ranThrough(asked, begins);
  const steps = stepsOf(asked);
  /** @param {string} name */
  const at = (name) => `${steps.findIndex((it) => it.name === name) + 1} of ${steps.length}`;
  const done = await state.asker.ask(steps, asked.about, (name) => begins(PHASES[name] ?? `Step ${at(name)}`));
  return { asked, done, found: await shownAs(asked, done), digest: done.answer?.cert.length ? await sha256(done.answer.cert) : null };
}

/**
 * One whose later steps hang on the earlier ones. A question of several that was refused is shown as if it had been asked alone.
 * @param {Asked} asked
 * @param {(phase: string) => void} begins
 * @returns {Promise<Answered>}
 */
async function ranThrough(asked, begins) {
  try {
    return { asked, done: {}, found: await asked.row.run(asked, (at) => begins(`Answering: ${at}`)), digest: null };
  } catch (why) {
    if (!(why instanceof Refused)) throw why;
    const { end, words } = why;
    return { asked: { ...asked, row: questionOf(words[0]) ?? asked.row, words, makes: false }, done: { answer: end }, found: tellRefusal(end.status, linesOf(textOf(end.text))), digest: null };
  }
}
