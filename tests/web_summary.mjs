// Says what the summary of the browser's page says, in node and by the program: node tests/web_summary.mjs PROGRAM CONFIG ORGS [NODE] [now]
// ORGS may be empty. What is printed is the summary's data, and its words: of each line the label and what is said.
import { spawnSync } from 'node:child_process';
import { existsSync, mkdtempSync, readFileSync, rmSync, writeFileSync } from 'node:fs';
import { tmpdir } from 'node:os';
import { basename, join } from 'node:path';
import { Questions, findAll } from '../web/asking/questions.js';
import { Network } from '../web/state/network.js';
import { Saying } from '../web/words/saying.js';
import { summaryOf } from '../web/words/summary.js';

const [program, config, orgs, node, now] = process.argv.slice(2);
const folder = mkdtempSync(join(tmpdir(), 'summary-'));

// What the worker of the page does, by runs of the program.
async function ask(steps, files) {
  const done = {};
  for (const { name, words, checks, files: over } of steps) {
    for (const [file, content] of Object.entries({ ...files, ...over, ...(checks ? { cert: done[checks].cert } : {}) })) writeFileSync(join(folder, file), content);
    rmSync(join(folder, 'made'), { force: true });
    const { status, stdout } = spawnSync(program, words, { cwd: folder });
    done[name] = { status, text: stdout, cert: existsSync(join(folder, 'made')) ? readFileSync(join(folder, 'made')) : new Uint8Array(0) };
  }
  return done;
}

try {
  const bytes = readFileSync(config), of = orgs ? readFileSync(orgs) : null, network = new Network(bytes, of);
  const made = JSON.stringify(network.orgs.map((org) => ({ id: org.id, validators: org.keys }))), files = { config: bytes, orgs: of ?? made };
  const questions = new Questions((steps) => ask(steps, files), network, '', !!of), found = await findAll(questions, network, node || null, now === 'now');
  const data = summaryOf(network, found), saying = new Saying(network, { config: basename(config), orgs: orgs ? basename(orgs) : '' });
  const words = (part) => (typeof part === 'string' ? part : saying.name(part.text));
  const said = [data.lines, ...data.parts.map((part) => part.lines)].flatMap((lines, at, all) => (all.length === 2 ? (at ? [] : saying.lines(all.flat())) : saying.lines(lines)));
  console.log(JSON.stringify({ data, said: said.flatMap(({ label, said: some }) => [label, some.map(({ parts }) => parts.map(words).join('')).join(' ')]) }));
} finally {
  rmSync(folder, { recursive: true });
}
