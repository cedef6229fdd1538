// Made by tools/maintain/commands from share/commands.json, and what lies here: do not edit.
import { SENTENCES } from '../words/sentences.js';
import { command as ofAvailable } from './available.js';
import { command as ofBlocking } from './blocking.js';
import { command as ofBlocks } from './blocks.js';
import { command as ofCheck } from './check.js';
import { command as ofCheckLrat } from './check-lrat.js';
import { command as ofClosure } from './closure.js';
import { command as ofDset } from './dset.js';
import { command as ofExport } from './export.js';
import { command as ofGreatest } from './greatest.js';
import { command as ofIntersect } from './intersect.js';
import { command as ofLeast } from './least.js';
import { command as ofOrgBlocking } from './org-blocking.js';
import { command as ofQuorums } from './quorums.js';
import { command as ofShow } from './show.js';
import { command as ofSplits } from './splits.js';
import { command as ofSummary } from './summary.js';
import { command as ofTrial } from './trial.js';
import { command as ofTurns } from './turns.js';
import { command as ofVblocks } from './vblocks.js';
import { command as ofWhatif } from './whatif.js';

/** @typedef {import('../types').Question} Question */
/** @typedef {import('../types').Row} Row */
/** @typedef {import('../types').Command} Command */

/** @type {[Row, Command][]} */
const ROWS = [
  [{"word": "summary", "files": [], "options": [], "needs": []}, ofSummary],
  [{"word": "intersect", "files": ["CONFIG", "CERT"], "options": ["from", "faulty", "orgs", "faulty-orgs", "budget"], "needs": [], "usage": "intersect CONFIG CERT [COMMON] [--budget UNITS]", "makes": {"yes": "refutation", "no": "pair", "unknown": "partial"}}, ofIntersect],
  [{"word": "splits", "files": ["CONFIG", "CERT"], "options": ["set", "from", "faulty", "orgs", "faulty-orgs", "budget"], "needs": ["set"], "usage": "splits CONFIG CERT --set NAMES [COMMON] [--budget UNITS]", "makes": {"yes": "pair", "no": "refutation", "unknown": "partial"}}, ofSplits],
  [{"word": "turns", "files": [], "options": [], "needs": []}, ofTurns],
  [{"word": "blocking", "files": ["CONFIG", "CERT"], "options": ["from", "faulty", "orgs", "faulty-orgs", "budget"], "needs": [], "usage": "blocking CONFIG CERT [COMMON] [--budget UNITS]", "makes": {"all": "blocking", "unknown": "partial-blocking"}}, ofBlocking],
  [{"word": "org-blocking", "files": ["CONFIG", "CERT"], "options": ["orgs", "from", "faulty", "faulty-orgs", "budget"], "needs": ["orgs"], "usage": "org-blocking CONFIG CERT --orgs ORGS [--from NAME] [--faulty NAMES] [--faulty-orgs IDS] [--budget UNITS]", "makes": {"all": "org-blocking", "unknown": "partial-org-blocking"}}, ofOrgBlocking],
  [{"word": "blocks", "files": ["CONFIG"], "options": ["set", "from", "faulty", "orgs", "faulty-orgs"], "needs": ["set"], "usage": "blocks CONFIG --set NAMES [COMMON]"}, ofBlocks],
  [{"word": "available", "files": ["CONFIG"], "options": ["set", "from"], "needs": ["set"], "usage": "available CONFIG --set NAMES [--from NAME]"}, ofAvailable],
  [{"word": "dset", "files": ["CONFIG", "CERT"], "options": ["set", "from", "budget"], "needs": ["set"], "usage": "dset CONFIG CERT --set NAMES [--from NAME] [--budget UNITS]", "makes": {"yes": "refutation", "no": "pair", "unknown": "partial"}}, ofDset],
  [{"word": "vblocks", "files": ["CONFIG"], "options": ["node", "set"], "needs": ["node", "set"], "usage": "vblocks CONFIG --node NAME --set NAMES"}, ofVblocks],
  [{"word": "greatest", "files": ["CONFIG"], "options": ["from", "faulty", "orgs", "faulty-orgs"], "needs": [], "usage": "greatest CONFIG [COMMON]"}, ofGreatest],
  [{"word": "closure", "files": ["CONFIG"], "options": ["node"], "needs": ["node"], "usage": "closure CONFIG --node NAME"}, ofClosure],
  [{"word": "quorums", "files": ["CONFIG", "CERT"], "options": ["from", "faulty", "orgs", "faulty-orgs", "budget"], "needs": [], "usage": "quorums CONFIG CERT [COMMON] [--budget UNITS]", "makes": {"all": "quorums", "unknown": "partial-quorums"}}, ofQuorums],
  [{"word": "least", "files": ["CONFIG", "CERT"], "options": ["from", "faulty", "orgs", "faulty-orgs", "budget"], "needs": [], "usage": "least CONFIG CERT [COMMON] [--budget UNITS]", "makes": {"all": "least", "unknown": "partial-least"}}, ofLeast],
  [{"word": "whatif", "files": ["CONFIG", "SCRIPT"], "options": ["set"], "needs": ["set"], "usage": "whatif CONFIG SCRIPT --set NAMES"}, ofWhatif],
  [{"word": "trial", "files": ["N", "CERT"], "options": ["budget"], "needs": [], "usage": "trial N CERT [--budget UNITS]", "makes": {"yes": "refutation", "unknown": "partial"}}, ofTrial],
  [{"word": "check", "files": ["CONFIG", "CERT"], "options": ["orgs"], "needs": [], "usage": "check CONFIG CERT [--orgs ORGS]"}, ofCheck],
  [{"word": "show", "files": ["CONFIG"], "options": [], "needs": [], "usage": "show CONFIG"}, ofShow],
  [{"word": "export", "files": ["CONFIG"], "options": ["from", "faulty", "orgs", "faulty-orgs", "formula"], "needs": [], "usage": "export CONFIG [COMMON] [--formula VERSION]"}, ofExport],
  [{"word": "check-lrat", "files": ["CONFIG", "LRAT"], "options": ["from", "faulty", "orgs", "faulty-orgs", "formula"], "needs": [], "usage": "check-lrat CONFIG LRAT [COMMON] [--formula VERSION]"}, ofCheckLrat],
];
/** @type {Record<string, import('../types').QuestionWords>} */
const WORDS = SENTENCES.questions;

/** @type {Question[]} The questions in the order of the page. */
export const QUESTIONS = ROWS.map(([row, command]) => ({ ...row, ...command, ...WORDS[row.word], options: command.takes ?? row.options }));
