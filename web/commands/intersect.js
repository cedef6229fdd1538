// Whether the network can fork.
import { said } from '../drawing/elements.js';
import { noQuorum, pair, told, undecided, whileLying } from '../drawing/told.js';
import { SENTENCES } from '../words/sentences.js';

const WORDS = SENTENCES.answers.intersect;

/** @type {import('../types').Command} */
export const command = {
  now: 'file',
  tell(lines, of) {
    const [, word, units] = lines[0].split(' ');
    if (word === 'unknown') return undecided(units);
    if (word === 'no') {
      const { more, sets } = pair(of, lines.slice(1, 3));
      return told(WORDS.no, {}, [whileLying(of, WORDS.no.said), ...more], sets);
    }
    if (!of.greatest.length) return noQuorum(of, said(WORDS.none.said));
    const none = whileLying(of, of.lying.length ? WORDS.yes.lying : WORDS.yes.said);
    if (of.from) return told(WORDS['as-one'], { node: of.network.name(of.from) }, [none, said(WORDS['as-one'].said)]);
    return told(WORDS.yes, {}, [none]);
  },
};
