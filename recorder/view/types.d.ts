// What the page of the view is made of: the model, which it holds as JSON.

import type { CountOfLibraries, LeftOut } from '../list/types';

/** The lane of the picture, the line, the words (index in `texts`), and the actions from which it comes, each with a word of `origins`. */
export type ShownAction = [lane: number, line: number, words: number, origins: [word: number, from: number][]];

/** A race, without names of members since there can be thousands; `places` are keys of `excerpts`, `words` and `location` indices in `texts`. */
export type PackedRace = [
  number: number, kind: number, location: number, spelled: string, modes: string, lines: [number, number], actions: [number, number],
  common: number | null, group: number, problem: number, words: number, places: (string | null)[],
];

/** The races of a group that are in the line of one problem (its index): the number of the first one, and how many they are; `number` is that of the report. */
export interface ShownGroup {
  number: number;
  race: number;
  size: number;
  problem: number;
}

/** A line of the list: its section, and the indices of its problems, first the one whose words it has. */
export interface ShownLine {
  part: string;
  isKnown: boolean;
  problems: number[];
}

export interface ShownProblem {
  name: string;
  /** Its entry in the list: the place and the sentence of the first line, the two sides, and what else is known of it. */
  place: string;
  sentence: string;
  sides: [verb: string, what: string, place: string, actor: string][];
  details: [label: string, text: string][];
  /** The number of the race of which the sentence is. */
  first: number;
  look: string;
  rank: number;
}

/** A place in a file (index in `files`); `own` is the text of its line if that is cut around the place. */
export interface Excerpt {
  file: number;
  line: number;
  column: number;
  own?: string;
}

export type Link = [from: number, to: number, rule: number];

export interface Difference {
  kind: string;
  subject: string;
  recorded: string;
  other: string;
  boxes?: [number, number, number, number][];
  /** The numbers of the other races that it comes from. */
  from?: number[];
}

/** What a replay found of a race. */
export interface ShownReplay {
  race: number;
  verdict: string;
  kind: 'differs'|'others'|'same'|'not';
  words: string;
  effect?: string;
  ownEffect?: string;
  means?: string;
  isListed?: boolean;
  note?: string;
  comparedAt?: string;
  groupWords?: string;
  differences: Difference[];
  beside?: Difference[];
  unsteady?: Difference[];
  byDelay?: Difference[];
  /** The trace of the other run, relative to the folder of the recorded one; and the command that views it. */
  trace: string;
  command?: string;
  picture?: string | null;
}

export interface ViewModel {
  page: string;
  counts: [name: string, number: number][];
  /** How many lines of the list, known ones apart, groups and races there are, shown or not. */
  totals: { problems: number; entries?: number; known?: number; groups: number; races: number };
  lanes: string[];
  kinds: string[];
  origins: string[];
  texts: string[];
  actions: ShownAction[];
  /** In the order of the list, what is known last. */
  listed: ShownLine[];
  problems: ShownProblem[];
  groups: ShownGroup[];
  races: PackedRace[];
  links: Link[];
  rules: { [rule: number]: string };
  files: string[];
  /** The lines of source by file and number. */
  lines: { [file: number]: { [line: number]: string } };
  excerpts: { [key: string]: Excerpt };
  leftOut: (LeftOut & { words: string })[];
  ofLibraries: CountOfLibraries | null;
  /** What the recording lacks of what was to be recorded, in words. */
  notComplete?: string[];
  /** Whether the analyzer was not built, so that something without a proof answered. */
  isUnproved: boolean;
  /** Whether the links between actions are left for later. */
  lacksLinks: boolean;
  /** The command that views traces, the trace of this view, and both together for a shell; the command that reports all races. */
  viewer: string;
  trace: string;
  command: string;
  report: string;
  replays?: ShownReplay[];
  recordedPicture?: string | null;
}
