// Calls the module. Each question has an instance of its own, so nothing of an earlier one is left, also after a trap.

/** @typedef {import('../types').Files} Files */
/** @typedef {import('../types').End} End */

/** @param {BufferSource} bytes */
export async function load(bytes) {
  const module = await WebAssembly.compile(bytes);
  const none = new Uint8Array(0);
  /**
   * An address is a number of 64 bits to the module, also where its memory is one of 32.
   * @param {bigint} pointer
   */
  const at = (pointer) => Number(BigInt.asUintN(64, pointer));

  /**
   * The answer in a room of that many bytes: the certificate at its front and the text at its end.
   * @param {string[]} words
   * @param {Files} files
   * @param {number} size
   * @returns {End}
   */
  function answer(words, { config, orgs, script, cert }, size) {
    const { memory, room, quorum_answer: answered } = /** @type {any} */ (new WebAssembly.Instance(module, {}).exports);
    const short = { status: 8, text: none, cert: none, wanting: 0, memory: memory.buffer.byteLength };
    const args = [];
    for (const held of [new TextEncoder().encode(words.join('\0')), config ?? none, orgs ?? none, script ?? none, cert ?? none]) {
      const pointer = room(BigInt(Math.max(held.length, 1)));
      if (pointer === 0n) return short;
      new Uint8Array(memory.buffer, at(pointer), held.length).set(held);
      args.push(pointer, BigInt(held.length));
    }
    const end = room(32n), front = room(BigInt(size));
    if (end === 0n || front === 0n) return short;
    answered(...args, front, BigInt(size), end);
    const view = new DataView(memory.buffer, at(end), 32);
    const [text, made, wanting] = [8, 16, 24].map((place) => Number(view.getBigUint64(place, true)));
    /**
     * @param {number} from
     * @param {number} length
     */
    const copy = (from, length) => new Uint8Array(memory.buffer, from, length).slice();
    return {
      status: view.getUint8(0),
      text: copy(at(front) + size - text, text),
      cert: copy(at(front), made),
      wanting,
      memory: memory.buffer.byteLength,
    };
  }

  return {
    /**
     * The same in a room that is enough: one that was too small says how much was wanting.
     * @param {string[]} words
     * @param {Files} files
     */
    ask(words, files, first = 2 ** 26, most = 2 ** 30) {
      let size = first;
      for (;;) {
        const ended = answer(words, files, size);
        if (ended.status !== 7 || size >= most) return ended;
        size = Math.min(Math.max(size * 4, ended.wanting), most);
      }
    },
  };
}
