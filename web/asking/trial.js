// The made-up network of the question how long one takes.

/**
 * The configuration of the made-up network of so many organisations, as docs/FORMATS.md defines it.
 * @param {number} count
 */
export function trialText(count) {
  /** @param {number} at */
  const key = (at) => `"t${String(at).padStart(3, '0')}"`;
  const inner = Array.from({ length: count }, (_, org) => `{"innerQuorumSets":[],"threshold":2,"validators":[${[0, 1, 2].map((at) => key(3 * org + at)).join(',')}]}`);
  const set = `{"innerQuorumSets":[${inner.join(',')}],"threshold":${count - Math.floor((count - 1) / 3)},"validators":[]}`;
  return `[${Array.from({ length: 3 * count }, (_, at) => `{"publicKey":${key(at)},"quorumSet":${set}}`).join(',')}]`;
}
