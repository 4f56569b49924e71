// What the list and the view read: the program's report, the names beside a trace (OUT.names.json), and what a replay found.

import type { Place, Race, Report } from '../races/types';

export type { Place, Race, Report };

export interface SourceFile {
  address: string;
  text?: string;
  lines?: { [line: string]: string };
  isLibrary?: boolean;
  isPart?: boolean;
}

/** What is known of a thing of the trace: each kind has some of these members. */
export interface Facts {
  tag?: string;
  id?: string;
  field?: string;
  source?: string;
  /** The whole address of what an element loads: code may set it after the element was first met, when there was no source. */
  loads?: string;
  standsFor?: number;
  message?: number;
  type?: string;
  function?: string;
  target?: number;
  isEmpty?: boolean;
  why?: string;
  act?: number;
  address?: string;
  url?: string;
  method?: string;
  place?: Place;
  way?: Place;
  ready?: Place;
  queue?: string;
  ends?: number;
}

/** What is known of an object, a closure or a module. */
export interface ObjectFacts {
  made?: string;
  name?: string;
  scope?: string;
  text?: string;
  module?: string;
  place?: Place;
  field?: number;
  windowOf?: number;
}

export type FactsByNumber = { [number: string]: Facts };

export interface LeftOut {
  location: string;
  accesses: number;
  pairs: number;
}

export interface CountOfLibraries {
  accesses: number;
  objects: number;
}

export interface Names {
  page?: string;
  files: SourceFile[];
  elements: FactsByNumber;
  documents: FactsByNumber;
  handlers: FactsByNumber;
  timeouts: FactsByNumber;
  intervals: FactsByNumber;
  requests: FactsByNumber;
  messages?: FactsByNumber;
  dispatches: FactsByNumber;
  objects?: { [number: string]: ObjectFacts };
  functions?: { [place: string]: string };
  places: { [line: string]: Place };
  ways?: { [line: string]: Place };
  callers?: { [line: string]: Place };
  values?: { [line: string]: string };
  befores?: { [line: string]: string };
  counts?: { [line: string]: boolean };
  kept?: { [line: string]: boolean };
  typed?: { [line: string]: boolean };
  leftOut?: LeftOut[];
  ofLibraries?: CountOfLibraries;
  /** What the recording lacks of what was to be recorded, in words. */
  notComplete?: string[];
  /** The scripts and handler attributes that were recorded without marks, and why. */
  unmarked?: unknown[];
}

/** What came of a race that was run again, as OUT.replay.json has it. */
export interface Verdict {
  race: number;
  verdict: string;
  /** Whether it differs by itself or only by other races, is the same, or was not reversed; only of er_page and er_replay. */
  kind?: 'differs'|'others'|'same'|'not';
  effect?: string;
  /** The worst effect that comes from no other race. */
  ownEffect?: string;
  /** The other races from which differences come. */
  from?: number[];
  /** Whether its handler ran and only read. */
  isReader?: boolean;
  words: string;
  /** The short form for the list. */
  sentence?: string;
  differences?: { kind: string, from?: number[] }[];
}

/** A page load of a suite, as it was recorded. */
export interface Load {
  address: string;
  test?: { name?: string; words?: string };
  errors?: string[];
  /** What was not recorded. */
  lost?: string[];
  why?: string;
  actions?: number;
}
