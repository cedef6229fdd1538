// The worker as the page sees it: questions go in, what they end with comes out, and it is ended to stop it.

/** @typedef {import('../types').Step} Step */
/** @typedef {import('../types').Files} Files */
/** @typedef {import('../types').End} End */

/**
 * The module as it was packed into the page.
 * @param {string} text
 */
export async function unpacked(text) {
  const packed = Uint8Array.from(atob(text), (letter) => letter.charCodeAt(0));
  const stream = new Blob([packed]).stream().pipeThrough(new DecompressionStream('gzip'));
  return new Uint8Array(await new Response(stream).arrayBuffer());
}

/** The worker, which answers one question at a time and is ended to stop it. */
export class Asker {
  /**
   * @param {Uint8Array} module
   * @param {string} script
   * @param {(why: string) => void} trouble
   */
  constructor(module, script, trouble) {
    this.module = module;
    this.trouble = trouble;
    this.source = URL.createObjectURL(new Blob([script], { type: 'text/javascript' }));
    this.last = 0;
    /** @type {{ done: Function, failed: Function, begins: (name: string) => void } | null} */
    this.waiting = null;
    this.start();
  }

  start() {
    this.worker = new Worker(this.source);
    this.worker.onmessage = ({ data }) => this.heard(data);
    this.worker.onerror = (event) => this.fail(event.message || 'The worker could not be started.');
    this.ready = new Promise((done) => { this.isReady = done; });
    this.worker.postMessage({ module: this.module });
  }

  /** @param {{ ready?: boolean, id?: number, begins?: string, done?: object, error?: string }} data */
  heard(data) {
    if (data.ready) this.isReady();
    else if (this.waiting && data.begins && data.id === this.last) this.waiting.begins(data.begins);
    else if (this.waiting && data.done && data.id === this.last) this.end('done', data.done);
    else if (data.error) this.fail(data.error);
  }

  /**
   * @param {'done' | 'failed'} how
   * @param {unknown} what
   */
  end(how, what) {
    const { waiting } = this;
    this.waiting = null;
    waiting?.[how](what);
  }

  /** @param {string} why */
  fail(why) {
    if (this.waiting) this.end('failed', new Error(why));
    else this.trouble(why);
  }

  /**
   * What each step ends with, by its name.
   * @param {Step[]} steps
   * @param {Files} files
   * @param {(name: string) => void} begins
   * @returns {Promise<Record<string, End>>}
   */
  ask(steps, files, begins = () => {}) {
    this.last++;
    return new Promise((done, failed) => {
      this.waiting = { done, failed, begins };
      this.worker.postMessage({ id: this.last, steps, files });
    });
  }

  stop() {
    this.worker.terminate();
    this.start();
    this.end('failed', new Error('stopped'));
  }
}
