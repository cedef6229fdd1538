// Files come in: each is put in its place, and the question that is asked of such a file is chosen.
import { readNetwork, state } from '../state/state.js';
import { kindOf } from '../state/network.js';
import { textOf } from '../state/texts.js';
import { counted } from '../words/saying.js';
import { $, make, strong, trouble } from './elements.js';
import { fillNodes, showFields } from './forms.js';

/** @typedef {'config' | 'orgs' | 'cert' | 'script'} Which */
/** @typedef {{ which: Which, name: string, bytes: Uint8Array }} Given */

// If they come together they are taken in this order.
const ORDER = ['orgs', 'config', 'script', 'cert'];
const MOST_BYTES = 2 ** 30;

/** Says what the file of organisations is, and whether it fits. */
function showOrganisations() {
  const { called, files, network } = state;
  const warning = network.lost() && files.config ? strong(`. ${network.lost()} of ${network.listed} validators are not in ${called.config}. Is it the same network?`, 'warn') : '';
  $('orgs-says').replaceChildren(`${called.orgs}: ${counted(network.orgs.length, 'organisation')}`, warning, ' ', forgetting());
}

/** A button that takes the organisations away. */
function forgetting() {
  const button = make('button', { type: 'button', class: 'link' }, 'Remove');
  button.onclick = () => { forgetOrganisations(); $('orgs').focus(); };
  return button;
}

function forgetOrganisations() {
  delete state.files.orgs;
  delete state.called.orgs;
  $('orgs').value = '';
  $('orgs-says').textContent = 'None: each node’s home domain is taken.';
  showNetwork();
}

/** Reads the network anew, and shows what it is. */
export function showNetwork() {
  readNetwork();
  fillNodes();
  const { called, files, network } = state;
  if (files.config) $('config-says').textContent = `${called.config}: ${counted(files.config.length, 'byte')}, ${counted(network.keys.length, 'node')}`;
  if (files.orgs) showOrganisations();
}

/**
 * Puts a file in its place.
 * @param {Given} given
 */
function put({ which, name, bytes }) {
  if (which === 'script') {
    $('script').value = textOf(bytes);
    $('question').value = 'whatif';
    return;
  }
  // The organisations of the example are none of another network.
  if (which === 'config' && state.isExample) forgetOrganisations();
  state.isExample = false;
  state.files[which] = bytes;
  state.called[which] = name;
  if (which === 'cert') $('cert-says').textContent = `${name}: ${counted(bytes.length, 'byte')}`;
  else showNetwork();
  if (which === 'config') {
    $('question').value = 'summary';
    $('now').checked = false;
  }
  if (which === 'cert') $('question').value = textOf(bytes.subarray(0, 10)) === 'fbas-cert ' ? 'check' : 'check-lrat';
}

/**
 * Takes files, and asks about them.
 * @param {Given[]} given
 * @param {() => Promise<void>} ask
 */
export async function take(given, ask) {
  if (state.asker?.waiting) state.asker.stop();
  given.sort((a, b) => ORDER.indexOf(a.which) - ORDER.indexOf(b.which));
  for (const it of given) put(it);
  showFields();
  const last = given[given.length - 1]?.which;
  if (state.files.config && last && last !== 'script') await ask();
  else if (last === 'cert') trouble('A certificate is about a file of nodes: give that too.');
}

/**
 * The bytes of a file, or null if it cannot be read.
 * @param {File} file
 */
export async function bytesOfFile(file) {
  try {
    if (file.size > MOST_BYTES) throw new Error('it is larger than 1 GiB');
    return new Uint8Array(await file.arrayBuffer());
  } catch (why) {
    trouble(`${file.name} cannot be read: ${why.message}`);
    return null;
  }
}

/**
 * Files that are dropped, each for what it is.
 * @param {File[]} dropped
 */
export async function givenBy(dropped) {
  /** @type {Given[]} */
  const given = [];
  for (const file of dropped) {
    const bytes = await bytesOfFile(file);
    if (bytes) given.push({ which: kindOf(bytes), name: file.name, bytes });
  }
  return given;
}
