// What the evaluation reads and writes: its list of pages (corpus.json), a line of pages.jsonl, and judgements.json.

export interface Counts { [name: string]: number }

// ---- the list of pages

export interface ListedPackage {
  kind: string;
  package: string;
  version: string;
  needs: string[];
}

export interface ListedPage {
  package: string;
  page: string;
  bytes: number;
}

export interface Corpus {
  packages: ListedPackage[];
  pages: ListedPage[];
}

/** A page with what is known of its package. */
export type Entry = ListedPackage & Pick<ListedPage, 'page'>;

/** What the text of a page says of its scripts. */
export interface Scripts {
  bytes: number;
  /** Those that are there, by their way from the root. */
  files: string[];
  /** The page has no title. */
  isPart: boolean;
  /** Most of the files are not there. */
  isBroken: boolean;
  /** The page goes to another one by itself. */
  isLeft: boolean;
  /** A script comes from another server. */
  hasForeign: boolean;
}

export type PageOfPackage = Scripts & { page: string; size: number };

// ---- what the calls of a page print

/** Standard error of a recording. */
export interface Said {
  load: number | null;
  errors: string[];
  notRecorded: string[];
  notDone: string[];
}

export interface Ended {
  status: number | null;
  seconds: number;
  failure?: string;
}

export type Recorded = Ended & Said;

/** A recording with the load without the recorder that came before it. */
export type RecordedBoth = Recorded & { plain: Recorded };

export interface Recordings {
  runs: RecordedBoth[];
  /** The loads of the machine. */
  loads: number[];
}

/** Loads for their times, in seconds; null if one did not end. */
export interface Loads {
  without: (number | null)[];
  with: (number | null)[];
  /** The share of the processors' time that was left meanwhile. */
  idle?: number;
}

export interface Costs {
  seconds: number;
  megabytes: number;
}

// ---- what the recordings have

export interface RunFigures {
  actions: number;
  accesses: number;
  pairs: number;
  races: number;
  groups: number;
  problems: number;
  lines: number;
  looks: Counts;
  kinds: Counts;
  leftOut: number;
}

/** The figures of a recording, or why it has none. */
export type RunMeasured = (RunFigures & { failure?: undefined }) | (Partial<RunFigures> & { failure: string });

export interface ProblemOfPage {
  name: string;
  look: string;
  kind: string;
  words: string;
  race: number;
  /** It came again in the second recording. */
  isAgain: boolean;
}

export interface ReplayedRace {
  name: string;
  verdict: string;
  effect?: string;
  why?: string;
  isListed: boolean;
  isApart: boolean;
  words: string;
}

export interface Measured {
  runs: RunMeasured[];
  problems: ProblemOfPage[];
  replays: ReplayedRace[];
}

// ---- a line of pages.jsonl

export interface Machine {
  chromium: string;
  processors: number;
  sideBySide: number;
  loads: number[];
}

export interface Facts {
  began: string;
  seconds: number;
  machine: Machine;
}

export type KnownPage = Omit<Entry, 'needs'>;

export interface RunFacts {
  status: number | null;
  seconds: number;
  load: number | null;
  loadWithout: number | null;
  errors: number;
  errorsWithout: number;
  /** The errors that come with the recorder alone. */
  alone: string[];
  notRecorded: string[];
  notDone: string[];
  /** Why it has nothing, or ''. */
  nothing: string;
}

export type RunOfLine = RunFacts & RunMeasured;

export type DoneLine = KnownPage & Facts & {
  failure?: undefined;
  runs: RunOfLine[];
  loads: Loads;
  program: Costs | null;
  replay: Ended & { races: ReplayedRace[] };
  problems: ProblemOfPage[];
};

export type FailedLine = KnownPage & Facts & { failure: string };

export type Line = DoneLine | FailedLine;

// ---- judgements.json

export interface Drawn {
  page: string;
  name: string;
  look: string;
  words: string;
  race: number;
  isAgain: boolean;
  replay: string;
}

export type Judged = Drawn & { judgement: string; lost: string; why: string };

/** What a judgement says, without the facts of its problem. */
export type Judgement = Pick<Judged, 'page' | 'name' | 'words' | 'judgement' | 'lost' | 'why'>;

export interface Judgements {
  seed: number | null;
  count: number;
  problems: Judged[];
  earlier?: Judged[];
}

// ---- sums

/** Loads of a page: the median without and with the recorder, and how many times the one is the other. */
export interface LoadFigures {
  without: number;
  with: number;
  times: number | null;
}

export interface ReplayFigures {
  tried: number;
  turned: number;
  listed: number;
  differ: number;
  same: number;
  apart: number;
  not: number;
  effects: Counts;
  whys: Counts;
}

/** The figures of a page, as its line has them. */
export interface Figures {
  page: string;
  package: string;
  kind: string;
  actions: number;
  accesses: number;
  races: number;
  groups: number;
  problems: number;
  lines: number;
  /** The races that are found with objects and closures alone. */
  objects: number;
  again: number | null;
  looks: Counts;
  kinds: Counts;
  loads: LoadFigures | null;
  program: Costs | null;
  replay: ReplayFigures;
}

/** Something that went wrong or was too much, with its page. */
export interface Trouble {
  page: string;
  run?: number;
  text: string;
}
