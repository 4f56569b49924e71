// Types of a trace's report and of its OUT.names.json, for the type check only.

/** A place in a file: the file's number, from 0, the line and the column, both from 1. */
export type Place = [file: number, line: number, column: number];

/**
 * A race of the report: its two accesses. `actions` are numbers of actions, from 0; `lines` are lines of the trace, from 1; `modes` has a letter for each
 * access, as `rw`; `group` is the number, from 1, of the group that the race names.
 */
export interface Race {
  actions: [first: number, second: number];
  lines: [first: number, second: number];
  modes: string;
  location: string;
  group: number;
}

/** A report of the analyzer. Of a trace that it refuses there is only `refused`. */
export interface Report {
  races: Race[];
  /** Of each group the number of its first race, from 1, and how many races name the group. */
  groups: { race: number, size: number }[];
  actions: number;
  accesses: number;
  pairs: number;
  chains: number;
  links: number;
  refused?: { cause: string, line?: number };
}

/** The answer of `judge`: a report, or why there is none. */
export interface Judged {
  status: number;
  report?: Report;
  fault?: string;
}

/** A location whose accesses were left out of a trace. */
export interface LeftOut {
  location: string;
  accesses: number;
  pairs: number;
}

export interface FileFacts {
  address: string;
  text?: string;
  /** Of a long file only the lines around its places, by their numbers. */
  lines?: { [line: number]: string };
  isLibrary?: boolean;
  /** Whether it stands for a library in a file with other code. */
  isPart?: boolean;
}

export interface ElementFacts {
  tag?: string;
  id?: string;
  field?: string;
  source?: string;
  loads?: string;
  place?: Place;
  way?: Place;
  document?: number;
  /** The number of the element for which this one is a stand-in. */
  standsFor?: number;
  /** The number of the message that this object delivers. */
  message?: number;
  why?: string;
}

/** What code has asked for at a place, in some cases by way of a library. */
interface Asked {
  function?: string;
  place?: Place;
  way?: Place;
}

export interface TimeoutFacts extends Asked {
  /** If jQuery's `ready` set it: where the page passed the callback. */
  ready?: Place;
}

export interface HandlerFacts extends Asked {
  type?: string;
  target?: number;
  /** Whether it only orders other handlers. */
  isEmpty?: boolean;
  /** If it stands for code that clears a callback: `timeout` or `interval`, and its number. */
  queue?: string;
  ends?: number;
}

export interface IntervalFacts extends Asked {
  why?: string;
}

export interface RequestFacts extends Asked {
  method?: string;
  url?: string;
  address?: string;
  /** The number of the transaction to which the request belongs. */
  of?: number;
}

export interface DispatchFacts {
  type?: string;
  /** The number of the user's act, or 0. */
  act?: number;
}

export interface ObjectFacts {
  scope?: string;
  text?: string;
  made?: string;
  name?: string;
  place?: Place;
  module?: string;
}

/** What each number of a trace is, by the kind of number. */
export interface NamesOfTrace {
  files: FileFacts[];
  documents: { [number: string]: { address?: string } };
  elements: { [number: string]: ElementFacts };
  handlers: { [number: string]: HandlerFacts };
  timeouts: { [number: string]: TimeoutFacts };
  intervals: { [number: string]: IntervalFacts };
  requests: { [number: string]: RequestFacts };
  dispatches: { [number: string]: DispatchFacts };
  messages?: { [number: string]: Asked };
  objects?: { [number: string]: ObjectFacts };
  functions?: { [place: string]: string };
  /** By the number of the line. */
  places: { [line: string]: Place };
  ways?: { [line: string]: Place };
  callers?: { [line: string]: Place };
  kept?: { [line: string]: boolean };
  typed?: { [line: string]: boolean };
}

/** What `Keys.identify` gives of an action: its key, and which of the actions with this key it is, from 1. */
export interface ActionIdentity {
  actionKey: string;
  nthAction: number;
}

/** What `Keys.identify` gives of an access. */
export interface AccessIdentity extends ActionIdentity {
  key: string;
  nth: number;
  mode: string;
  kind: string;
  name: string;
  isLookUp: boolean;
}

/** Where an access or an action is in a run. */
export interface Found {
  action: number;
  line: number;
}
