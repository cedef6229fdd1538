// The shapes that the modules of the page hand to one another.

declare global {
  /** What browsers have since 2023, and the compiler of Debian does not know yet. */
  class DecompressionStream {
    constructor(format: 'gzip');
    readable: ReadableStream;
    writable: WritableStream;
  }
}

/** The files of a question by what they are, as bytes. */
export interface Files {
  config?: Uint8Array;
  orgs?: Uint8Array;
  script?: Uint8Array;
  cert?: Uint8Array;
}

/** What a call of the module ended with. */
export interface End {
  status: number;
  text: Uint8Array;
  cert: Uint8Array;
  wanting?: number;
  memory?: number;
  time?: number;
}

/** A step of a question: its words, files of its own, and the step whose certificate it checks. */
export interface Step {
  name: string;
  words: string[];
  checks?: string;
  files?: Files;
}

/** What each step ended with, by its name; a check of nothing with null. */
export type Done = Record<string, End | null>;

export interface Organisation {
  id: string;
  name: string;
  domain: string;
  keys: string[];
}

export interface QuorumSet {
  threshold: number;
  validators: string[];
  innerQuorumSets: QuorumSet[];
}

export interface FileNode {
  publicKey: string;
  name?: string;
  homeDomain?: string;
  isValidating?: boolean;
  active?: boolean;
  quorumSet?: QuorumSet | null;
}

/** A part of a text: words, or an organisation or node as `org:` with an id or `node:` with a key. */
export type Part = string | { text: string };

/** What stands in an element. */
export type Inside = Node | string | null | undefined | Inside[];

/** A title and a sentence for a kind of answer, and further words. */
export interface AnswerWords {
  mood?: string;
  head?: string;
  said?: string;
  [more: string]: string | undefined;
}

/** Sets of nodes that the picture paints. */
export interface Painted {
  greatest?: string[];
  first?: string[];
  second?: string[];
  lying?: string[];
  silent?: string[];
  marked?: string[];
  markedAs?: string;
  down?: string[];
  unknown?: string[];
  within?: string[] | null;
}

/** As whom a certificate speaks, and who lies there. */
export interface View {
  from?: string;
  faulty: string[];
}

/** What an answer says: good, bad or open, a heading, what stands below it, and what is painted. */
export interface Told {
  mood: string;
  head: string;
  more: Inside;
  sets?: Painted;
  painted?: Painted;
  again?: boolean;
  saves?: string;
  view?: View;
  ends?: End[];
  kept?: Kept[];
}

/** A certificate that was made and accepted on the way. */
export interface Kept {
  name: string;
  cert: Uint8Array;
  says: string;
}

/** What an answer is about. */
export interface Of {
  network: import('./state/network.js').Network;
  files: Files;
  lying: string[];
  node: string;
  from: string;
  greatest: string[];
  shownBy: (kind: string) => ((lines: string[], of: Of) => { more: Inside; sets: Painted }) | undefined;
}

/** A question of the page: the words for it, the row of the table, and what its module does. */
export interface Question extends Row, Command, QuestionWords {}

export interface QuestionWords {
  group: string;
  ask: string;
  help: string;
  set?: string;
}

/** A row of the table of the commands; a question of several commands has one without files. */
export interface Row {
  word: string;
  usage?: string;
  files: string[];
  options: string[];
  needs: string[];
  makes?: Record<string, string>;
}

/** What the module of a command says of its question. */
export interface Command {
  /** How it is asked as things are now: with those that are down in its set, or about a file in which they agree with nobody. */
  now?: 'set' | 'file';
  /** Whether the chosen nodes fall silent; else they lie. */
  silent?: boolean;
  tell?: (lines: string[], of: Of) => Told;
  /** What an accepted list of this command shows. */
  shown?: (lines: string[], of: Of) => { more: Inside; sets: Painted };
  /** The commands by which a question of several is asked, and the options that it takes. */
  by?: string[];
  takes?: string[];
  /** The steps of a question of several, and what they say. */
  steps?: (asked: Asked) => Step[];
  tellSteps?: (done: Done, asked: Asked, greatest: string[]) => Told;
  /** A question whose later steps hang on the earlier ones. */
  run?: (asked: Asked, begins: (at: string) => void) => Promise<Told>;
}

/** A question as it is asked. */
export interface Asked {
  row: Question;
  words: string[];
  common: string[];
  makes: boolean;
  trial: boolean;
  isNow: boolean;
  byFile: boolean;
  set: string[];
  lying: string[];
  node: string;
  from: string;
  budget: string;
  about: Files;
}
