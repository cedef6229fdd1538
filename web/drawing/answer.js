// An answer as it is shown: the verdict, the certificate, times, the program's own words, and the keys.
import { trialText } from '../asking/trial.js';
import { base, state } from '../state/state.js';
import { bytesOf, linesOf, textOf } from '../state/texts.js';
import { Saying, counted } from '../words/saying.js';
import { $, between, code, fold, listed, make, named, said, strong, table } from './elements.js';
import { Paint, draw } from './picture.js';
import { nowLink, save, size } from './saving.js';
import { wish } from './wish.js';

/** @typedef {import('../types').Asked} Asked */
/** @typedef {import('../types').Done} Done */
/** @typedef {import('../types').End} End */
/** @typedef {import('../types').Told} Told */

const MOST_TEXT = 20000, MOST_KEYS = 500;
const USUAL_BUDGET = 1000000, MOST_BUDGET = 4000000000;

/** @param {{ mood: string, head: string, more: import('../types').Inside }} told */
export const verdict = ({ mood, head, more }) => make('div', { class: `verdict ${mood}` }, make('h3', { id: 'head' }, head), more);
/** @param {End | null | undefined} checked */
export const isAccepted = (checked) => checked?.status === 0 || checked?.status === 2;
/** @param {number} time */
const seconds = (time) => (time < 1000 ? `${Math.round(time)} ms` : `${(time / 1000).toFixed(2)} s`);

/**
 * The certificate with what its check in the page says, and the network of a made-up one.
 * @param {Asked} asked
 * @param {Done} done
 * @param {string | null} digest
 */
function certificate(asked, { answer, checked }, digest) {
  if (!asked.makes || !answer.cert.length) return [];
  const name = asked.trial ? `trial-${asked.words[1]}` : `${base()}-${asked.row.word}`;
  const saves = [save(`Save the certificate (${size(answer.cert.length)})`, `${name}.cert`, answer.cert)];
  if (asked.trial) saves.push(' ', save('Save its network', `${name}.json`, bytesOf(trialText(Number(asked.words[1])))));
  const says = isAccepted(checked) ? strong('Checked in this page, in a fresh instance: ', 'good') : strong('Its own check does not accept it. Do not use this answer: ', 'bad');
  const first = make('code', { id: 'checked' }, checked ? linesOf(textOf(checked.text)).slice(0, 3).join('; ') : 'there was no check');
  const sum = digest ? make('p', { class: 'small' }, 'SHA-256 ', code(digest)) : '';
  return [make('h3', {}, 'Certificate'), said(saves), said(says, first), sum];
}

/**
 * The command of the program that asks the same.
 * @param {Asked} asked
 */
function commandOf(asked) {
  const { called } = state;
  /** @type {Record<string, string>} */
  const files = { config: asked.byFile ? `${base()}-now.json` : called.config, made: `${asked.trial ? 'trial' : base()}.cert`, cert: called.cert, script: 'edits.script' };
  /** @param {string} word */
  const quoted = (word) => (/^[\w.,=/:@+-]+$/.test(word) ? word : `'${word.replaceAll("'", "'\\''")}'`);
  /** @param {string} word */
  const orgs = (word) => (word === '--orgs=orgs' ? `--orgs=${called.orgs ?? 'orgs.json'}` : word);
  return `quorum_cli ${asked.words.map((word, at) => quoted((at && at < 3 && files[word]) || orgs(word))).join(' ')}`;
}

/**
 * @param {Asked} asked
 * @param {Done} done
 */
function ownWords(asked, { answer }) {
  const printed = make('pre', { tabindex: '0', 'aria-label': 'What the program printed' }, textOf(answer.text.subarray(0, MOST_TEXT)));
  const whole = answer.text.length > MOST_TEXT ? said(save(`Save all of it (${size(answer.text.length)})`, `${base()}-${asked.row.word}.txt`, answer.text)) : '';
  const same = make('pre', { id: 'command', tabindex: '0', 'aria-label': 'The command' }, commandOf(asked));
  const made = asked.words.includes('--orgs=orgs') && !state.files.orgs;
  const orgs = made ? said(save('Save the organisations as they were asked about', 'orgs.json', asked.about.orgs)) : '';
  const now = asked.byFile ? said('It is about the file in which those that are down agree with nobody. ', nowLink()) : '';
  return fold(`The program’s own words, status ${answer.status}`, false, printed, whole, make('p', { class: 'small' }, 'The same by the program:'), same, orgs, now);
}

/**
 * The nodes of the answer with their keys.
 * @param {Told} found
 */
function keysOf({ painted = {} }) {
  const { network } = state, sets = [painted.lying, painted.silent, painted.first, painted.second, painted.marked];
  const some = new Set(sets.flatMap((keys) => keys ?? [])), shown = some.size ? some : new Set(painted.greatest ?? []), paint = new Paint(painted);
  if (!shown.size) return '';
  /** @param {string} key */
  const row = (key) => [named(network.name(key)), named(network.orgOf.get(key)?.name ?? ''), paint.says(key), code(key)];
  return fold('Names and keys', false, table('Names and keys', ['Name', 'Organisation', 'Here', 'Key'], network.sorted(shown).slice(0, MOST_KEYS).map(row)));
}

/**
 * The time of an answer and its check, or of many.
 * @param {(End | null | undefined)[]} ends
 */
function timed(ends) {
  const there = ends.filter(Boolean), [answer, checked] = there, all = there.reduce((sum, end) => sum + end.time, 0);
  const check = checked ? `, ${seconds(checked.time)} for checking the certificate` : '';
  const took = there.length > 2 ? `${seconds(all)} for ${there.length} answers and checks` : `${seconds(answer.time)} for the answer${check}`;
  const memory = Math.round(Math.max(...there.map((end) => end.memory)) / 2 ** 20);
  return make('p', { class: 'small', id: 'times' }, `${took}; ${memory} MiB of memory were reserved.`);
}

/** @param {Asked} asked */
function againWithMore(asked) {
  const more = Math.min((Number(asked.budget) || USUAL_BUDGET) * 10, MOST_BUDGET);
  const button = make('button', { type: 'button' }, `Ask again with ${more.toLocaleString('en')} units`);
  button.onclick = () => wish({ budget: String(more) });
  return said(button);
}

/**
 * What is said above an answer that goes by organisations, if their file does not fit.
 * @param {Asked} asked
 */
function misfit(asked) {
  const { network } = state;
  if (!network.lost() || !(asked.row.word === 'turns' || asked.words.includes('--orgs=orgs'))) return '';
  const { mood, parts } = new Saying(network, state.called).sentence({ line: 'orgs', say: 'lost', lost: network.lost(), of: network.listed });
  return make('p', { class: mood }, /** @type {string[]} */ (parts));
}

/**
 * The certificates that were checked on the way, each saved by a link.
 * @param {import('../types').Kept[]} kept
 */
function keptOf(kept) {
  const rows = kept.map(({ name, cert, says }) => [save(name, `${base()}-${name.replace(/[^\w.-]+/g, '-')}.cert`, cert, 'link'), ': ', code(says)]);
  return rows.length ? fold(`${counted(rows.length, 'certificate')}, each checked in this page, in a fresh instance`, false, listed('ul', rows), said(otherFiles(kept))) : '';
}

/**
 * The files that some of them are about in place of the one that was given.
 * @param {import('../types').Kept[]} kept
 */
function otherFiles(kept) {
  /** @param {string} start */
  const has = (start) => kept.some(({ name }) => name.startsWith(start));
  const made = has('now-') ? [nowLink()] : [], { network } = state;
  if (has('validators-')) made.push(save('The file of validators', `${base()}-validators.json`, bytesOf(network.validatorsText(new Set(network.named.keys()), false)), 'link'));
  return made.length ? ['Those with now- or validators- in their names are about: ', between(made)] : '';
}

/**
 * All that stands under an answer.
 * @param {Asked} asked
 * @param {Done} done
 * @param {Told} found
 * @param {string | null} digest
 */
function bodyOf(asked, done, found, digest) {
  const whose = asked.from ? `, as ${state.network.name(asked.from)} sees it` : '';
  const when = asked.isNow ? ', as things are now' : '';
  const about = make('p', { class: 'asked' }, asked.row.ask, asked.trial ? '' : make('span', { class: 'small' }, ` ${state.called.config}${whose}${when}`));
  if (found.ends) return [about, verdict(found), keptOf(found.kept), timed(found.ends), keysOf(found)];
  if (asked.row.steps) return [about, misfit(asked), verdict(found), timed(Object.values(done)), keysOf(found)];
  const saves = found.saves ? said(save(`Save it (${size(done.answer.text.length)})`, `${base()}.${found.saves}`, done.answer.text)) : '';
  const again = found.again ? againWithMore(asked) : '', times = timed([done.answer, done.checked]);
  return [about, misfit(asked), verdict(found), again, saves, ...certificate(asked, done, digest), times, ownWords(asked, done), keysOf(found)];
}

/**
 * Shows an answer, and the picture with its sets.
 * @param {Asked} asked
 * @param {Done} done
 * @param {Told} found
 * @param {string | null} digest
 */
export function show(asked, done, found, digest) {
  const { network } = state;
  $('answer-body').replaceChildren(...bodyOf(asked, done, found, digest).filter(Boolean));
  $('answer').hidden = false;
  if (found.painted) $('drawing').replaceChildren(...draw(network, new Paint({ down: network.down(), unknown: network.unknown(), ...found.painted })));
  $('picture').hidden = !found.painted || !network.keys.length;
  $('status').textContent = `Answered: ${found.head}`;
  $('answer').scrollIntoView({ block: 'nearest' });
  document.body.dataset.answers = String(Number(document.body.dataset.answers ?? 0) + 1);
}

/**
 * Shows that there is no answer, and why.
 * @param {string} why
 */
export function showFailed(why) {
  const stopped = why === 'stopped';
  const text = stopped ? 'Stopped. Nothing is known of it.' : 'The module was stopped by the browser, and nothing of it is used again.';
  $('answer-body').replaceChildren(verdict({ mood: 'open', head: stopped ? 'Stopped.' : 'There is no answer.', more: [said(text), stopped ? '' : said(make('code', {}, why))] }));
  $('answer').hidden = false;
  $('status').textContent = text;
}
