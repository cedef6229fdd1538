// Asks the module of the page what a list of questions says: node tests/web_ask.mjs MODULE.wasm CASES.json FOLDER
// A case has its words and the paths of its files. Case N's text and certificate go to FOLDER as N.text and N.cert; what is printed is
// a list of statuses, with each one's time in ms and memory in bytes.
import { readFileSync, writeFileSync } from 'node:fs';
import { load } from '../web/state/glue.js';

const [module, cases, folder] = process.argv.slice(2);
const called = await load(readFileSync(module));
const ends = [];
for (const { words, files } of JSON.parse(readFileSync(cases, 'utf8'))) {
  const held = Object.fromEntries(Object.entries(files).map(([name, path]) => [name, readFileSync(path)]));
  const started = performance.now();
  const ended = called.ask(words, held);
  writeFileSync(`${folder}/${ends.length}.text`, ended.text);
  writeFileSync(`${folder}/${ends.length}.cert`, ended.cert);
  ends.push({ status: ended.status, time: performance.now() - started, memory: ended.memory });
}
console.log(JSON.stringify(ends));
