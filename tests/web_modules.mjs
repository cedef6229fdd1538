// Tries the modules of the page one by one, in node: node tests/web_modules.mjs. What is drawn goes into a stand-in of a document that has
// only what the modules call. Each line that is printed is a case that failed; the status is 0 if there is none.
import { strict as assert } from 'node:assert';
import { readFileSync, readdirSync } from 'node:fs';
import { posix } from 'node:path';

/** An element: its attributes, and what stands in it. */
class Drawn {
  constructor(tag) {
    Object.assign(this, { tag, given: {}, inside: [] });
  }

  setAttribute(name, value) { this.given[name] = value; }
  append(...parts) { this.inside.push(...parts); }
  replaceChildren(...parts) { this.inside = parts; }
  querySelector(tag) { return this.all(tag)[0] ?? null; }
  focus() { globalThis.document.activeElement = this; }
  get textContent() { return this.inside.map((it) => (typeof it === 'string' ? it : it.textContent)).join(''); }
  all(tag) { return this.inside.flatMap((it) => (typeof it === 'string' ? [] : [...(it.tag === tag ? [it] : []), ...it.all(tag)])); }
}

const wishes = [];
globalThis.CustomEvent = class {
  constructor(name, { detail }) { Object.assign(this, { name, detail }); }
};
globalThis.document = { createElement: (tag) => new Drawn(tag), dispatchEvent: (event) => wishes.push([event.name, event.detail]) };

const { QUESTIONS } = await import('../web/commands/table.js');
const { asksByOrgs, isThere, missing, orgsBytes, questionOf } = await import('../web/asking/asking.js');
const { Chooser } = await import('../web/drawing/chooser.js');
const { save, size } = await import('../web/drawing/saving.js');
const { Asker } = await import('../web/state/asker.js');
const { load } = await import('../web/state/glue.js');
const { base, readNetwork, state } = await import('../web/state/state.js');
const { tellRefusal } = await import('../web/drawing/refusal.js');
const { make, placed, table } = await import('../web/drawing/elements.js');
const { Paint, draw } = await import('../web/drawing/picture.js');
const { Network, kindOf, tidy } = await import('../web/state/network.js');
const { compared, natural, sortedBy } = await import('../web/state/order.js');
const { bytesOf, linesOf, namesIn, setsIn, sha256, textOf } = await import('../web/state/texts.js');
const { Saying, counted, filled, nodesSaid } = await import('../web/words/saying.js');
const { SENTENCES } = await import('../web/words/sentences.js');
const { trialText } = await import('../web/asking/trial.js');
const { distinct, inOrder, leastOf } = await import('../web/asking/questions.js');

async function test(name, body) {
  try {
    await body();
  } catch (why) {
    process.exitCode = 1;
    console.log(`${name}: ${String(why.message).split('\n').slice(0, 6).join(' ')}`);
  }
}

const held = (name) => readFileSync(new URL(`../examples/${name}`, import.meta.url));
const network = new Network(held('network.json'), held('orgs.json'));
const commands = JSON.parse(readFileSync(new URL('../share/commands.json', import.meta.url), 'utf8')).commands;
const said = (parts) => make('div', {}, parts).textContent;
const keys = (...names) => names.map((name) => `G${name.toUpperCase().replace(/\d/, '').repeat(3)}${name.slice(-1)}`);
const nine = ['a', 'b', 'c'].flatMap((it) => [1, 2, 3].flatMap((at) => keys(`${it}${at}`)));
const shownBy = (kind) => QUESTIONS.find((it) => it.makes?.all === kind)?.shown;
const of = { network, files: {}, lying: [], node: 'GAAA1', from: '', greatest: nine, shownBy };
const VIEW = ['from', 'faulty'];

// A command, the lines of its answer, what is other about it, the mood and the heading, and a text that stands below it.
const TOLD = [
  ['intersect', ['intersects yes'], {}, 'good', 'It cannot fork.', 'Every two quorums share a node, so while no node lies'],
  ['intersect', ['intersects yes'], { lying: ['GAAA1'] }, 'good', 'It cannot fork.', 'If gaaa1 lies, every two quorums still share'],
  ['intersect', ['intersects yes'], { lying: network.orgs[0].keys }, 'good', 'It cannot fork.', 'If Alder lies, '],
  ['intersect', ['intersects yes'], { from: 'GAAA1' }, 'open', 'As gaaa1 sees it, it cannot fork.', 'Of the other nodes of the file this says nothing.'],
  ['intersect', ['intersects yes'], { greatest: [] }, 'open', 'No quorum is known.', 'The quorum sets of 1 node are not known'],
  ['intersect', ['intersects no', 'first GAAA1', 'second GBBB1 GBBB2'], {}, 'bad', 'It can fork.', 'One: gaaa1The other: gbbb1, gbbb2'],
  ['intersect', ['intersects unknown 7'], {}, 'open', 'Not decided.', 'The budget of 7 units is spent.'],
  ['splits', ['splits yes', 'first GAAA1', 'second GWATCH'], {}, 'bad', 'They can fork it by lying.', 'watcher stands in no other node’s quorum set'],
  ['splits', ['splits no'], {}, 'good', 'They cannot fork it by lying.', 'whatever these say to each'],
  ['blocking', ['blocking 2', 'set GAAA1 GAAA2 GBBB1', 'set GBBB2'], {}, 'open', '2 minimal blocking sets.', 'The smallest has 1 node.'],
  ['blocking', ['blocking 1', 'set'], { greatest: [] }, 'open', 'No quorum is known.', 'So there is nothing to stop.'],
  ['quorums', ['quorums 1', 'set GAAA1 GAAA2'], {}, 'open', '1 minimal quorum.', 'can agree on their own'],
  ['quorums', ['quorums 0'], {}, 'open', 'There is no minimal quorum.', ''],
  ['org-blocking', ['org-blocking 1', 'set node:GAAA1 org:beech'], {}, 'open', '1 set of organisations.', 'gaaa1 and Beech'],
  ['least', ['least 1', 'quorum GAAA1'], {}, 'open', '1 node can agree on its own, and no fewer.', 'One such quorum: gaaa1'],
  ['least', ['least 2', 'quorum GAAA1 GBBB1'], {}, 'open', '2 nodes can agree on their own, and no fewer.', 'gaaa1, gbbb1'],
  ['least', ['least none'], {}, 'open', 'No quorum is known.', ''],
  ['blocks', ['blocks yes'], {}, 'bad', 'They stop it.', 'no quorum is left'],
  ['blocks', ['blocks no', 'greatest GAAA1'], {}, 'good', 'It goes on without them.', 'The greatest quorum without them: gaaa1'],
  ['available', ['available yes'], {}, 'good', 'All others go on without them.', 'Each of the others has a slice left.'],
  ['available', ['available no', 'unmet GAAA1'], {}, 'bad', 'Not all others go on.', '1 node has no slice left: gaaa1. Who depends'],
  ['available', ['available no', 'unmet GAAA1 GAAA2'], {}, 'bad', 'Not all others go on.', '2 nodes have no slice left: gaaa1, gaaa2. Who depends'],
  ['dset', ['available yes', 'intersects yes', 'dset yes'], {}, 'good', 'They are dispensable.', 'If they lie the others cannot fork.'],
  ['dset', ['available no', 'unmet GAAA1', 'intersects no', 'first GAAA2', 'second GBBB1', 'dset no'], {}, 'bad', 'They are not dispensable.', 'Without a slice: gaaa1If they lie the others can fork:One: gaaa2'],
  ['dset', ['available yes', 'intersects unknown 3', 'dset unknown'], {}, 'open', 'Not decided.', 'is not decided within the budget'],
  ['vblocks', ['vblocks yes'], {}, 'bad', 'They can stop gaaa1.', 'v-blocking'],
  ['vblocks', ['vblocks no'], {}, 'good', 'They cannot stop gaaa1 by themselves.', 'A slice of it is left.'],
  ['greatest', ['greatest GAAA1 GAAA2'], {}, 'open', '2 nodes can agree.', 'The other 8 can agree with nobody.'],
  ['greatest', ['greatest'], {}, 'open', 'No quorum is known.', ''],
  ['closure', ['closure GAAA1'], {}, 'open', 'gaaa1 depends on 1 node.', 'through others: gaaa1'],
  ['check', ['accepted refutation', ...VIEW], {}, 'good', 'Accepted: refutation.', 'Of whom it speaks: the whole file. Who lies: nobody.'],
  ['check', ['accepted blocking 1', 'from GAAA1', 'faulty GBBB1', 'set GAAA2'], {}, 'open', 'Accepted: blocking 1.', 'what gaaa1 depends on. Who lies: gbbb1'],
  ['check', ['accepted partial-least 4', ...VIEW], {}, 'open', 'Accepted: partial-least 4.', 'work that was done'],
  ['check', ['accepted least 1', ...VIEW, 'quorum GAAA3'], {}, 'open', 'Accepted: least 1.', 'gaaa3'],
  ['check', ['accepted pair', ...VIEW], { files: { cert: bytesOf('1\n2\n3\n4\n5\nfirst GAAA1\nsecond GBBB1\nend\n') } }, 'bad', 'Accepted: pair.', 'One: gaaa1The other: gbbb1'],
  ['check-lrat', ['verified'], {}, 'good', 'The proof is right: it cannot fork.', 'It refutes the formula'],
  ['show', ['nodes 10', 'entries 108', 'unset 1'], {}, 'good', '10 nodes.', '108 entries in all quorum sets; 1 without a quorum set; 1 that no other'],
  ['show', ['nodes 1', 'entries 2', 'unset 0', 'threshold GAAA1 . 3 1', 'repeated GAAA2 0.1 GBBB1'], {}, 'bad', '1 node.', 'gaaa1: its own quorum set has the threshold 3 over 1 entry, so no choice meets itgaaa2: its inner quorum set 0.1 names gbbb1 more than once'],
  ['export', ['c formula 3', 'c config 00', 'p cnf 12 34', '1 0'], {}, 'open', 'A formula of 12 variables and 34 clauses.', 'pairs of quorums'],
  ['trial', ['trial 1', 'nodes 3', 'variables 4', 'clauses 5', 'intersects yes'], {}, 'good', 'It cannot fork.', '3 nodes in 1 organisation of three; a formula of 4 variables and 5 clauses.'],
  ['trial', ['trial 2', 'nodes 6', 'variables 4', 'clauses 5', 'intersects unknown 9'], {}, 'open', 'Not decided.', 'The budget of 9 units'],
  ['whatif', ['edit 0', 'greatest GAAA1 GAAA2', 'available yes', 'edit 1', 'greatest GAAA1', 'available no', 'unmet GBBB1'], { files: { script: bytesOf('retire GAAA2\n') } }, 'good', 'It goes on after the last edit.', 'retire GAAA2 (gaaa2)1 node, without gaaa2no: gbbb1'],
  ['whatif', ['edit 0', 'greatest GAAA1', 'available yes', 'edit 1', 'greatest', 'available yes'], { files: { script: bytesOf('retire GAAA1\n') } }, 'bad', 'It stops.', 'none'],
];

for (const [word, lines, other, mood, head, text] of TOLD) {
  await test(`${word}: ${lines.join(' / ')}`, () => {
    const found = QUESTIONS.find((it) => it.word === word).tell(lines, { ...of, ...other });
    assert.deepEqual([found.mood, found.head], [mood, head]);
    assert(said(found.more).includes(text), said(found.more));
  });
}

await test('each question has its words, each command a question, and each answer is told', () => {
  assert.deepEqual(QUESTIONS.map((it) => it.word), Object.keys(SENTENCES.questions));
  for (const { word, usage } of commands) assert.equal(QUESTIONS.find((it) => it.word === word)?.usage, usage);
  for (const it of QUESTIONS) assert(it.group && it.ask && it.help && (it.tell || it.run || (it.steps && it.tellSteps)), it.word);
  const told = new Set(TOLD.map(([word]) => word));
  assert.deepEqual(QUESTIONS.filter((it) => it.tell && !told.has(it.word)).map((it) => it.word), []);
});

await test('each kind of certificate has words', () => {
  const { kinds } = SENTENCES.answers.check;
  for (const { makes = {} } of commands) for (const kind of Object.values(makes)) assert(kind in kinds || kind.startsWith('partial'), kind);
});

await test('a set of watchers alone is asked about as another sees it', () => {
  const found = QUESTIONS.find((it) => it.word === 'intersect').tell(['intersects no', 'first GWATCH', 'second GAAA1'], of);
  const [button] = make('div', {}, found.more).all('button');
  button.onclick();
  assert.deepEqual(wishes.splice(0), [['wish', { from: 'GAAA1' }]]);
});

await test('refusals', () => {
  assert.equal(tellRefusal(4, ['config bad-key 0']).head, 'The file is refused.');
  assert(said(tellRefusal(4, ['config bad-key 0']).more).startsWith('Its first entry has no public key.'));
  assert(said(tellRefusal(4, ['config bad-key 3']).more).startsWith('A node’s publicKey is missing'));
  assert.deepEqual([tellRefusal(9, ['too-large 5']).mood, tellRefusal(8, []).head, tellRefusal(77, []).head], ['open', 'Memory ran out.', 'There is no answer.']);
});

await test('names: short, escaped, apart', () => {
  assert.equal(tidy(' a\u202eb\n '), 'a\\u202eb\\u000a');
  assert.equal(tidy('x'.repeat(100)).length, 60);
  const twins = new Network(bytesOf(JSON.stringify([{ publicKey: 'GAAAAAAAAAAAAAAA', name: 'same' }, { publicKey: 'GBBBBBBBBBBBBBBB', name: 'same' }])), null);
  assert.deepEqual(twins.keys.map((key) => twins.name(key)), ['same (GAAAA…AAAA)', 'same (GBBBB…BBBB)']);
  assert.equal(new Network(bytesOf('{"nodes": 3'), null).keys.length, 0);
});

await test('the network of the guide', () => {
  assert.deepEqual(network.orgs.map((org) => [org.id, org.keys.length]), [['alder', 3], ['beech', 3], ['cedar', 3]]);
  assert.deepEqual(network.watchers(), ['GWATCH']);
  assert.deepEqual(network.networks(nine), [nine]);
  assert.deepEqual(network.byOrganisation([['GAAA1', 'GBBB1'], ['GAAA2', 'GBBB1', 'GCCC1']]), [['Alder', 'Beech']]);
  assert.equal(JSON.parse(network.validatorsText(new Set(['GAAA1']), false)).length, 1);
});

await test('who is down has a threshold that nobody meets', () => {
  const set = { threshold: 1, validators: ['a', 'b'], innerQuorumSets: [] };
  const down = new Network(bytesOf(JSON.stringify([{ publicKey: 'a', quorumSet: set, isValidating: false }, { publicKey: 'b', quorumSet: set }])), null);
  assert.deepEqual(down.down(), ['a']);
  assert.deepEqual(JSON.parse(down.nowText()).map((it) => it.quorumSet.threshold), [3, 1]);
});

await test('what a file is', () => {
  const kinds = [['fbas-cert 2\n', 'cert'], ['[{"publicKey":"a"}]', 'config'], ['[{"id":"a"}]', 'orgs'], ['retire a\n', 'script'], ['1 2 3 0\n', 'cert']];
  for (const [text, kind] of kinds) assert.equal(kindOf(bytesOf(text)), kind);
});

await test('order', () => {
  assert.deepEqual(sortedBy(['n10', 'N9', 'n1'], natural), ['n1', 'N9', 'n10']);
  assert.deepEqual([compared([1, 'b'], [1, 'a']), compared([1], [1, 'a']) < 0, compared('a', 'a')], [1, true, 0]);
  assert.deepEqual(inOrder([['b', 'a'], ['c']]), [['c'], ['a', 'b']]);
  assert.deepEqual(leastOf([['a'], ['a', 'b'], ['c', 'd']]), [['a'], ['c', 'd']]);
  assert.deepEqual(distinct([['a', 'b'], ['a', 'b'], ['c']]), [['a', 'b'], ['c']]);
});

await test('lines and digests', async () => {
  assert.deepEqual(linesOf('a b\nc\n'), ['a b', 'c']);
  assert.deepEqual([namesIn('set a b'), namesIn('set'), namesIn(undefined)], [['a', 'b'], [], []]);
  assert.deepEqual(setsIn(['blocking 3', 'set a b', 'settle x', 'set c']), [['c'], ['a', 'b']]);
  assert.equal(textOf(bytesOf('é')), 'é');
  assert.equal(await sha256(bytesOf('')), 'e3b0c44298fc1c149afbf4c8996fb92427ae41e4649b934ca495991b7852b855');
});

await test('words', () => {
  const saying = new Saying(network, { config: 'network.json', orgs: 'orgs.json' });
  const text = (data) => saying.sentence(data).parts.map((part) => (typeof part === 'string' ? part : saying.name(part.text))).join('');
  assert.equal(text({ line: 'stop', say: 'sets', sets: [['org:alder', 'org:beech'], ['org:alder', 'org:cedar'], ['org:beech', 'org:cedar']] }), '3 sets: any 2 of these 3 together: Alder, Beech, Cedar.');
  assert.equal(text({ line: 'lies', say: 'split', of: 1, orgs: [['alder', 2]] }), 'Of 1 watcher, on whom nobody depends, some could be split off by Alder (2).');
  assert.equal(text({ line: 'orgs', say: 'lost', lost: 1, of: 9 }), '1 of 9 validators of orgs.json are not in network.json.');
  assert.deepEqual([counted(1, 'node'), counted(0, 'node'), filled('{a} of {b}', { a: 1, b: 'two' })], ['1 node', '0 nodes', '1 of two']);
  assert.equal(nodesSaid(network, [...network.keys, 'GNONE1', 'GNONE2', 'GNONE3']).map((part) => part.text ?? part).join(''), '13 nodes (all of org:alder, all of org:beech, all of org:cedar, 4 of no organisation)');
});

await test('what is drawn', () => {
  assert.equal(make('p', { title: 'a', hidden: true, id: null }, 'x', [null, ['y', '']]).textContent, 'xy');
  assert.deepEqual(placed('{a} and {b}', { a: 'x', b: ['y'] }), ['', 'x', ' and ', ['y'], '']);
  assert.deepEqual(table('T', ['A', 'B'], [['1', '2']]).all('td').map((it) => it.textContent), ['2']);
  const paint = new Paint({ greatest: nine, lying: ['GAAA1'], down: ['GBBB1'], unknown: ['GWATCH'], marked: ['GCCC1'], markedAs: 'marked' });
  assert.deepEqual(['GAAA1', 'GBBB1', 'GCCC1', 'GWATCH'].map((key) => paint.says(key)), ['lies', 'in the greatest quorum, down', 'in the greatest quorum, marked', 'of which the quorum set is not known']);
  const drawn = make('div', {}, draw(network, paint));
  assert.deepEqual(drawn.all('h3').map((it) => it.textContent), ['Alder', 'Beech', 'Cedar', 'Of no organisation: 1']);
});

const web = new URL('../web/', import.meta.url);
const modules = readdirSync(web, { recursive: true }).filter((it) => it.endsWith('.js')).map((it) => it.replaceAll('\\', '/'));
const textOfModule = (name) => readFileSync(new URL(name, web), 'utf8');
const brought = new Map(modules.map((name) => [name, [...textOfModule(name).matchAll(/^(?:import|export) .*?from '(.*?)'/gm)].map(([, it]) => posix.join(posix.dirname(name), it))]));

await test('state, words and drawing stand apart', () => {
  const others = (folder, ...allowed) => modules.filter((it) => it.startsWith(folder)).flatMap((it) => brought.get(it)).filter((it) => !allowed.some((start) => it.startsWith(start)));
  assert.deepEqual(others('state/', 'state/'), []);
  assert.deepEqual(others('words/', 'words/', 'state/', 'asking/questions.js'), []);
  assert.deepEqual(others('asking/questions.js', 'state/'), []);
  assert.deepEqual(modules.filter((it) => /^(?!\s*(\/\/|\*)).*\b(document|window)\./m.test(textOfModule(it)) && it !== 'main.js' && !it.startsWith('drawing/')), []);
});

await test('no module brings itself in by others', () => {
  const done = new Set();
  const follow = (name, way) => {
    assert(!way.includes(name), [...way, name].join(' → '));
    if (!done.has(name)) brought.get(name).forEach((it) => follow(it, [...way, name]));
    done.add(name);
  };
  modules.forEach((name) => follow(name, []));
  assert(brought.get('main.js').length > 5);
});

await test('the state', () => {
  state.files = { config: held('network.json') };
  state.called = { config: 'my net work.JSON' };
  readNetwork();
  assert.deepEqual([state.network.keys.length, base()], [10, 'my-net-work']);
});

await test('what a question lacks, and by what it is asked', () => {
  const asked = (words, about, trial) => missing({ words, trial, about });
  assert(asked(['intersect', 'config', 'made'], {}, false).startsWith('Give the file of nodes'));
  assert(asked(['check', 'config', 'cert'], { config: held('network.json') }, false).startsWith('Give the certificate'));
  assert.deepEqual([asked(['trial', '3', 'made'], {}, true), asked(['show', 'config'], { config: held('network.json') }, false)], [null, null]);
  state.usage = new Set([questionOf('intersect').usage]);
  assert.deepEqual(['intersect', 'blocks', 'turns'].map((it) => isThere(questionOf(it))), [true, false, false]);
  state.files.cert = bytesOf('fbas-cert 3\nkind partial-org-blocking\n');
  assert.deepEqual(['org-blocking', 'intersect', 'check'].map((it) => asksByOrgs(questionOf(it))), [true, false, true]);
  state.files.cert = bytesOf('fbas-cert 3\nkind blocking\n');
  assert.equal(asksByOrgs(questionOf('check')), false);
  assert.deepEqual(JSON.parse(textOf(orgsBytes())), state.network.orgs.map(({ id, keys: validators }) => ({ id, validators })));
});

await test('the worker as the page sees it', async () => {
  const started = [], troubles = [];
  globalThis.Worker = class {
    constructor() { Object.assign(this, { sent: [], ended: false }); started.push(this); }
    postMessage(data) { this.sent.push(data); }
    terminate() { this.ended = true; }
  };
  const asker = new Asker(bytesOf('module'), 'script', (why) => troubles.push(why)), [first] = started, phases = [];
  first.onmessage({ data: { ready: true } });
  await asker.ready;
  const answer = asker.ask([{ name: 'a', words: ['show', 'config'] }], {}, (it) => phases.push(it));
  first.onmessage({ data: { id: 0, done: { a: 'of an earlier question' } } });
  first.onmessage({ data: { id: 1, begins: 'a' } });
  first.onmessage({ data: { id: 1, done: { a: 'end' } } });
  assert.deepEqual([await answer, phases, first.sent.length], [{ a: 'end' }, ['a'], 2]);
  const stopped = asker.ask([], {});
  asker.stop();
  await assert.rejects(stopped, { message: 'stopped' });
  const failed = asker.ask([], {});
  started[1].onmessage({ data: { error: 'a trap' } });
  await assert.rejects(failed, { message: 'a trap' });
  started[1].onerror({ message: '' });
  assert.deepEqual([first.ended, started.length, troubles], [true, 2, ['The worker could not be started.']]);
});

/** A stand-in for the module: it answers the words that it is given, in a room of at least so many bytes. */
function standIn(least) {
  const memory = { buffer: new ArrayBuffer(4096) }, text = (from, length) => new Uint8Array(memory.buffer, Number(from), Number(length)), view = new DataView(memory.buffer);
  let free = 8;
  return {
    memory,
    room(bytes) {
      const at = free;
      free += (Number(bytes) + 7) & ~7;
      return free > memory.buffer.byteLength ? 0n : BigInt(at);
    },
    quorum_answer(words, length, config, configLength, orgs, orgsLength, script, scriptLength, cert, certLength, front, most, end) {
      const asked = text(words, length), isShort = most < least, sizes = isShort ? [0, 0, least] : [asked.length, Number(configLength), 0];
      view.setUint8(Number(end), isShort ? 7 : 0);
      sizes.forEach((it, at) => view.setBigUint64(Number(end) + 8 * (at + 1), BigInt(it), true));
      if (isShort) return;
      text(front, most).set(asked, Number(most) - asked.length);
      text(front, most).set(text(config, configLength));
    },
  };
}

/** Has modules run over stand-ins, each with exports of its own; compiles what is no module to an error. */
function overStandIns(exportsOf) {
  const compile = async (bytes) => {
    if (!bytes.length) throw new Error('no module');
    return bytes;
  };
  globalThis.WebAssembly = { compile, Instance: class { exports = exportsOf(); } };
}

await test('the module is called in rooms that grow, and each question in an instance of its own', async () => {
  const rooms = [];
  overStandIns(() => rooms[rooms.push(standIn(200)) - 1]);
  const module = await load(bytesOf('module'));
  const ended = module.ask(['show', 'config'], { config: bytesOf('[1]') }, 64, 1024);
  assert.deepEqual([ended.status, textOf(ended.text), textOf(ended.cert), rooms.length], [0, 'show\0config', '[1]', 2]);
  assert.deepEqual([module.ask(['x'], {}, 64, 100).status, module.ask(['x'], {}, 8000, 8000).status], [7, 8]);
});

await test('the worker takes steps, checks what was made, and tells an error', async () => {
  const told = [];
  overStandIns(() => standIn(0));
  Object.assign(globalThis, { onmessage: null, postMessage: (it) => told.push(it) });
  await import('../web/state/worker.js');
  await globalThis.onmessage({ data: { module: bytesOf('module') } });
  assert.deepEqual(told.splice(0), [{ ready: true }]);
  const steps = [{ name: 'answer', words: ['show', 'config'] }, { name: 'checked', checks: 'answer', words: ['check'] }];
  await globalThis.onmessage({ data: { id: 3, steps, files: {} } });
  assert.deepEqual(told.splice(0).map((it) => it.begins ?? Object.entries(it.done).map(([name, end]) => [name, end && end.status])), ['answer', 'checked', [['answer', 8], ['checked', null]]]);
  await globalThis.onmessage({ data: { module: bytesOf('') } });
  assert.deepEqual(told.map((it) => it.error), ['Error: no module']);
});

await test('nodes and organisations are chosen, found and taken away', () => {
  const box = make('div', {}), chooser = new Chooser(box);
  chooser.show(network);
  const ticks = (name) => box.all('label').filter((it) => it.given.title === name).map((it) => it.all('input')[0]);
  for (const name of ['alder', 'GBBB1']) for (const tick of ticks(name)) { tick.checked = true; tick.onchange(); }
  assert.deepEqual(chooser.all(), ['GAAA1', 'GAAA2', 'GAAA3', 'GBBB1']);
  chooser.filter.value = 'beech';
  chooser.fill();
  assert(box.all('label').length < network.keys.length && ticks('GAAA1').length === 0);
  box.all('button').find((it) => it.given.title === 'alder').onclick();
  assert.deepEqual(chooser.all(), ['GBBB1']);
});

await test('what is saved', () => {
  const link = save('a text', 'name.cert', bytesOf('bytes'));
  assert.deepEqual([link.given.download, state.saved.splice(0), link.textContent], ['name.cert', [link.given.href], 'a text']);
  assert.deepEqual([size(9999), size(10000), size(12e6)], ['9999 bytes', '10 kB', '12 MB']);
});

await test('a made-up network', () => {
  const nodes = JSON.parse(trialText(4));
  assert.deepEqual([nodes.length, nodes[11].publicKey, nodes[0].quorumSet.threshold, nodes[0].quorumSet.innerQuorumSets[3].validators], [12, 't011', 3, ['t009', 't010', 't011']]);
});
