// What the applications' modules, their recordings and their tables share.

import type { Place } from './place.js';
import type { PlainPage } from './confirm/plain-page.js';

/** What an application answers after its start. */
export interface Started {
  /** The address that is recorded. */
  page: string;
  /** Further arguments of the recorder, as what a log-in needs. */
  given?: string[];
}

/** A module of packages/. */
export interface Application {
  /** The package that is evaluated. Its name is the application's. */
  package: string;
  /** What else is installed; nothing that apt only recommends is. */
  packages: string[];
  /** How its page is reached, if not by everybody. */
  login?: 'form' | 'cookie' | 'credentials';
  start(place: Place): Promise<Started>;
  /** What a user does: arguments of er_page. */
  flow: string[];
}

// ---- a line of applications.jsonl

/** A recording by er_page: what it printed, and what its list has. */
export interface Recorded {
  status: number | null;
  seconds: number;
  /** Why there is no list. */
  failure?: string;
  errors: string[];
  notRecorded: string[];
  notDone: string[];
  figures?: Figures;
}

export interface Figures {
  actions: number;
  accesses: number;
  races: number;
  groups: number;
  lines: number;
  /** The lines of each section of the list. */
  sections: { [part: string]: number };
}

/** A line of the first list. */
export interface Problem {
  name: string;
  look: string;
  part: string;
  /** Its place among the lines, from 1. */
  place: number;
  race: number;
  summary: string;
  words: string;
  isAgain: boolean;
  replay?: string;
}

export interface Loads {
  without: (number | null)[];
  with: (number | null)[];
}

export interface DoneLine {
  application: string;
  version: string;
  login: string;
  began: string;
  seconds: number;
  machine: { chromium: string; processors: number; loads: number[] };
  failure?: undefined;
  runs: Recorded[];
  loads: Loads;
  problems: Problem[];
  /** By the name of a confirmed bug, its line in the list of each recording; null if none shows it. */
  bugs?: { [name: string]: (BugLine | null)[] };
}

/** The line of a list that shows a confirmed bug: its place and the number of its section, from 1, and how many of both there are. */
export interface BugLine {
  summary: string;
  place: number;
  lines: number;
  part: string;
  section: number;
  sections: number;
}

export interface FailedLine {
  application: string;
  version: string;
  began: string;
  seconds: number;
  failure: string;
}

export type Line = DoneLine | FailedLine;

// ---- judgements.json

export interface Judged {
  application: string;
  name: string;
  look: string;
  part: string;
  place: number;
  summary: string;
  words: string;
  judgement: '' | 'harmful' | 'harmless' | 'impossible';
  /** What the recording lacks, of an impossible one. */
  lost: string;
  why: string;
}

export interface Judgements {
  seed: number;
  count: number;
  problems: Judged[];
}

// ---- confirm/

/** A bug that a list shows, as a user meets it in a browser without the recorder. */
export interface Confirmed {
  application: string;
  /** What a user loses. */
  loses: string;
  /** The sentence of its line in the list. */
  line: RegExp;
  /** Does what the user does; with `isOther`, something slow comes in the other order. Answers what is to be seen at the end. */
  run(page: PlainPage, isOther: boolean): Promise<Seen>;
  isHarmed(seen: Seen): boolean;
}

export type Seen = { [what: string]: string };
