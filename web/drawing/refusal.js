// What a refusal means, by how its line begins.
import { SENTENCES } from '../words/sentences.js';
import { code, said } from './elements.js';
import { told } from './told.js';

const { causes: CAUSES, status: STATUS, 'without-line': WITHOUT_LINE } = /** @type {{ causes: string[][], status: Record<string, string>, 'without-line': Record<string, string> }} */ (SENTENCES.refusals);

/**
 * @param {number} status
 * @param {string[]} lines
 */
export function tellRefusal(status, lines) {
  const line = lines[0] ?? '', cause = CAUSES.find(([start]) => line.startsWith(start)), text = cause ? cause[1] : (WITHOUT_LINE[status] ?? '');
  const words = { mood: status === 9 ? 'open' : 'bad', head: STATUS[status] ?? STATUS.other };
  return told(words, {}, [text ? said(text) : '', line && !line.startsWith('usage: ') ? said(code(line)) : '']);
}
