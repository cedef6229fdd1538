// The worker: it answers one question at a time, in steps, and says when each ends. The page stops it by ending it.
import { load } from './glue.js';

/** @typedef {import('../types').Step} Step */
/** @typedef {import('../types').Files} Files */
/** @typedef {import('../types').Done} Done */
/** @typedef {Awaited<ReturnType<typeof load>>} Module */

/** @type {Promise<Module>} */
let loaded;

/**
 * A step may have files of its own, and check what an earlier step of the question has made.
 * @param {Module} module
 * @param {Step} of
 * @param {Files} files
 * @param {Done} done
 */
function step(module, of, files, done) {
  const made = of.checks ? done[of.checks] : null;
  if (made && !(made.status <= 2 && made.cert.length)) return null;
  const started = performance.now();
  const ended = module.ask(of.words, { ...files, ...of.files, ...(made ? { cert: made.cert } : {}) });
  return { ...ended, time: performance.now() - started };
}

onmessage = async ({ data }) => {
  const { id, module, steps, files } = data;
  try {
    if (module) loaded = load(module);
    const called = await loaded;
    if (module) return postMessage({ ready: true });
    /** @type {Done} */
    const done = {};
    for (const of of steps) {
      postMessage({ id, begins: of.name });
      done[of.name] = step(called, of, files, done);
    }
    postMessage({ id, done });
  } catch (error) {
    postMessage({ id, error: String(error) });
  }
};
