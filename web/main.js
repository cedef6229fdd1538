// The page: files come in, a question is asked in the worker, and its answer is shown.
import { PHASES, answerTo, missing } from './asking/asking.js';
import { asTurns } from './commands/turns.js';
import { show, showFailed } from './drawing/answer.js';
import { Chooser } from './drawing/chooser.js';
import { $, trouble } from './drawing/elements.js';
import { bytesOfFile, givenBy, showNetwork, take } from './drawing/files.js';
import { fillLeaving, fillQuestions, question, showFields } from './drawing/forms.js';
import { Asker, unpacked } from './state/asker.js';
import { state } from './state/state.js';
import { bytesOf, linesOf, sha256, textOf } from './state/texts.js';

// What whoever looks at the page by its console has of it, as the tests do: by the name `page`.
export { $, asTurns, sha256, state };

// The digest of the page as it came, before anything of it changes: this is its file, byte for byte.
const own = `<!DOCTYPE html>${document.documentElement.outerHTML}`;

/** The question at work: what it is at, since when, and what shows that. */
const work = { phase: '', started: 0, timer: 0 };

/** @param {boolean} is */
function busy(is) {
  $('ask').disabled = is;
  $('stop').disabled = !is;
  $('progress').hidden = !is;
  document.body.dataset.state = is ? 'asking' : 'idle';
  window.clearInterval(work.timer);
  if (!is) return;
  work.started = performance.now();
  work.phase = PHASES.answer;
  const tick = () => { $('elapsed').textContent = `${work.phase}: ${((performance.now() - work.started) / 1000).toFixed(1)} s`; };
  tick();
  work.timer = window.setInterval(tick, 100);
}

/** Asks what the form says, and shows the answer. */
async function ask() {
  const asked = question(), lack = missing(asked), turn = ++state.turn;
  trouble(lack ?? '');
  if (lack) {
    document.body.dataset.state = 'idle';
    return;
  }
  const old = state.saved.splice(0);
  busy(true);
  $('status').textContent = `Asked: ${asked.row.ask}`;
  try {
    const { asked: shown, done, found, digest } = await answerTo(asked, (phase) => { work.phase = phase; });
    if (turn === state.turn) show(shown, done, found, digest);
  } catch (why) {
    if (turn === state.turn) showFailed(why.message);
  }
  for (const url of old) URL.revokeObjectURL(url);
  if (turn === state.turn) busy(false);
}

/** Asks about the example network. */
async function takeExample() {
  const names = { orgs: 'orgs.json', config: 'network.json' };
  const given = /** @type {('orgs' | 'config')[]} */ (['orgs', 'config']).map((which) => ({ which, name: names[which], bytes: bytesOf($(`example-${which}`).textContent) }));
  const answered = take(given, ask);
  state.isExample = true;
  await answered;
}

/** Files that are dragged over the page and dropped. */
function listenToDrops() {
  /** @param {DragEvent} event */
  const isFile = (event) => [...(event.dataTransfer?.types ?? [])].includes('Files');
  document.ondragover = (event) => { if (isFile(event)) { event.preventDefault(); $('over').hidden = false; } };
  document.ondragleave = (event) => { if (!event.relatedTarget) $('over').hidden = true; };
  document.ondrop = async (event) => {
    if (!isFile(event)) return;
    event.preventDefault();
    $('over').hidden = true;
    await take(await givenBy([...event.dataTransfer.files]), ask);
  };
}

function listen() {
  for (const which of /** @type {('config' | 'orgs' | 'cert')[]} */ (['config', 'orgs', 'cert'])) {
    $(which).onchange = async () => {
      const [file] = $(which).files, bytes = file && (await bytesOfFile(file));
      if (bytes) await take([{ which, name: file.name, bytes }], ask);
    };
  }
  $('example').onclick = takeExample;
  $('question').onchange = showFields;
  $('leaves').onchange = fillLeaving;
  $('form').onsubmit = (/** @type {SubmitEvent} */ event) => { event.preventDefault(); if (!$('ask').disabled) ask(); };
  $('stop').onclick = () => state.asker.stop();
  document.onkeydown = (event) => { if (event.key === 'Escape' && state.asker.waiting && !$('stop').disabled) state.asker.stop(); };
  document.addEventListener('wish', (event) => {
    const fields = /** @type {CustomEvent<import('./drawing/wish.js').Wish>} */ (event).detail;
    for (const [name, value] of Object.entries(fields)) $(name).value = value;
    ask();
  });
  listenToDrops();
}

async function begin() {
  sha256(bytesOf(own)).then((digest) => { $('own').textContent = digest ?? 'is not computed: the page did not come by https or from a disk'; });
  state.silent = new Chooser($('set'));
  state.lying = new Chooser($('faulty'));
  state.asker = new Asker(await unpacked($('module').textContent), $('worker').textContent, (why) => trouble(`The module does not run in this browser: ${why}`));
  await state.asker.ready;
  const { help } = await state.asker.ask([{ name: 'help', words: [] }], {});
  state.usage = new Set(linesOf(textOf(help.text)));
  fillQuestions();
  showNetwork();
  listen();
  document.body.dataset.state = 'idle';
}

begin().catch((why) => trouble(`The page could not be started. Is this browser older than 2023? ${why.message}`));
