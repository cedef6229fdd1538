// The form: which fields a question has, and what they say.
import { asksByOrgs, isThere, isTrial, orgsBytes, questionOf } from '../asking/asking.js';
import { QUESTIONS } from '../commands/table.js';
import { state } from '../state/state.js';
import { bytesOf } from '../state/texts.js';
import { counted } from '../words/saying.js';
import { SENTENCES } from '../words/sentences.js';
import { $, make } from './elements.js';

/** @typedef {import('../types').Asked} Asked */
/** @typedef {import('../types').Question} Question */

const SILENT = SENTENCES.questions.blocks.set;

/** The question that is chosen. */
const row = () => questionOf($('question').value);

/** Shows the fields that the chosen question has. */
export function showFields() {
  const chosen = row(), { set, help, options, files, now } = chosen, down = state.network.down().length, isScript = files[1] === 'SCRIPT';
  /** @type {Record<string, boolean>} */
  const shown = { ...Object.fromEntries(options.map((it) => [it, true])), now: !!now && down > 0, organisations: isTrial(chosen), script: isScript, leaves: isScript };
  for (const field of /** @type {NodeListOf<HTMLElement>} */ (document.querySelectorAll('[data-option]'))) field.hidden = !shown[field.dataset.option];
  $('set').querySelector('legend').textContent = set ?? SILENT;
  $('help').textContent = help;
  $('now-says').textContent = `${counted(down, 'validator')} that the file marks as down: silent`;
}

/** The questions of which the module has the commands, by their groups. */
export function fillQuestions() {
  const groups = [...new Set(QUESTIONS.map((it) => it.group))];
  /** @param {string} group */
  const rows = (group) => QUESTIONS.filter((it) => it.group === group && isThere(it)).map((it) => make('option', { value: it.word }, it.ask));
  $('question').replaceChildren(...groups.map((group) => make('optgroup', { label: group }, rows(group))));
  showFields();
}

/**
 * The nodes of a list to choose one from, by organisation.
 * @param {string | null} first
 */
function nodeOptions(first) {
  const { network } = state;
  /** @param {string} key */
  const option = (key) => make('option', { value: key }, network.name(key));
  /**
   * @param {string} label
   * @param {string[]} keys
   */
  const group = (label, keys) => (keys.length ? make('optgroup', { label }, network.sorted(keys).map(option)) : '');
  const groups = network.orgs.map((org) => group(org.name, org.keys.filter((key) => network.orgOf.get(key) === org)));
  return [first ? make('option', { value: '' }, first) : '', ...groups, group(network.orgs.length ? 'Of no organisation' : 'Nodes', network.outside())].filter(Boolean);
}

/** Fills the lists of nodes and organisations, once a network is read. */
export function fillNodes() {
  const { network } = state;
  for (const chooser of [state.silent, state.lying]) chooser.show(network);
  $('from').replaceChildren(...nodeOptions('About the whole file'));
  $('node').replaceChildren(...nodeOptions(null));
  $('leaves').replaceChildren(make('option', { value: '' }, 'Choose one'), ...network.orgs.filter((org) => org.keys.length).map((org) => make('option', { value: org.id }, org.name)));
  $('ask').disabled = false;
}

/** An organisation that leaves: its keys retire one after another. */
export function fillLeaving() {
  const org = state.network.orgs.find((it) => it.id === $('leaves').value);
  if (org) $('script').value = org.keys.map((key) => `retire ${key}\n`).join('');
}

/**
 * The words about who lies and as whom: those that the greatest quorum is asked with too.
 * @param {Question} chosen
 */
function commonWords(chosen) {
  const { lying, files } = state, words = [];
  if (chosen.options.includes('from') && $('from').value) words.push(`--from=${$('from').value}`);
  if (!chosen.options.includes('faulty')) return words;
  const orgs = files.orgs ? [...lying.orgs] : [], keys = files.orgs ? [...lying.keys] : lying.all();
  if (keys.length) words.push(`--faulty=${keys.join(',')}`);
  if (orgs.length) words.push('--orgs=orgs', `--faulty-orgs=${orgs.join(',')}`);
  return words;
}

/**
 * The question that the form asks: its words, and all that is shown with its answer.
 * @returns {Asked}
 */
export function question() {
  const chosen = row(), { word, options, files } = chosen, { network } = state, common = commonWords(chosen), trial = isTrial(chosen), second = files[1];
  /** @param {string} option */
  const value = (option) => (options.includes(option) ? $(option).value.trim() : '');
  const makes = !!chosen.makes, isNow = !!chosen.now && $('now').checked && network.down().length > 0;
  const set = options.includes('set') ? [...new Set([...state.silent.all(), ...(isNow && chosen.now === 'set' ? network.down() : [])])].sort() : [];
  const byFile = isNow && chosen.now === 'file' && !chosen.run;
  const asked = { row: chosen, common, makes, trial, isNow, byFile, set, lying: options.includes('faulty') ? state.lying.all() : [], node: value('node'), from: value('from'), budget: value('budget') };
  const words = [word, trial ? $('organisations').value.trim() : 'config'];
  if (second) words.push(makes ? 'made' : second === 'SCRIPT' ? 'script' : 'cert');
  if (options.includes('node')) words.push(`--node=${asked.node}`);
  if (options.includes('set')) words.push(`--set=${set.join(',')}`);
  words.push(...common);
  if (asksByOrgs(chosen) && !words.includes('--orgs=orgs')) words.push('--orgs=orgs');
  if (asked.budget) words.push(`--budget=${asked.budget}`);
  return { ...asked, words, about: { ...state.files, ...(byFile ? { config: bytesOf(network.nowText()) } : {}), orgs: orgsBytes(), script: bytesOf($('script').value) } };
}
