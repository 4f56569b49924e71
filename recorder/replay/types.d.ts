// Types of the parts of a replay, for the type check only.

import type { AccessIdentity, Race } from '../races/types';
import type { Keys } from '../races/keys';
import type { Recorder } from '../recording/recorder';
import type { Act } from '../recording/acts';
import type { RecordingOptions, ReplayOptions as Replays } from '../recording/options';
import type { Names } from '../trace/names';
import type { Due } from './due';
import type { End } from './found/end-state';
import type { Ordered } from './found/lawful';

/** The options of a command that a replay reads: those of the recording, and how it is replayed. */
export type ReplayOptions = RecordingOptions & Pick<Replays, 'atOnce' | 'mayChange'>;

export type { Act };

/** An event that is held back: the nth of its type at the target of a handler, or at an element. */
export interface HeldEvent {
  type: string;
  nth: number;
  tag?: string;
  id?: string;
  source?: string;
}

/** What is held back so that an action comes later. */
export interface Cause {
  means: 'response' | 'parser' | 'load' | 'callback' | 'event' | 'act';
  /** The number of the first action that cannot come then. */
  action: number;
  /** What is done, in words. */
  words: string;
  /** Of a callback: the word of the note of the log, as `set`; the place of the code, in the browser's copy; and the way of the calls that led there. */
  word?: string;
  place?: string;
  way?: string;
  /** Which one it is of those that nothing else tells apart, from 1, and how many there are. */
  nth?: number;
  of?: number;
  /** The address of a response, a page or a file. */
  address?: string;
  /** Whether code requested the response. */
  isReply?: boolean;
  /** The offset in the page's text at which the parser waits; null at its end. */
  offset?: number | null;
  event?: HeldEvent;
  /** The number of the user's act, and of the act after which it comes; 0 if it only waits. */
  act?: number;
  after?: number;
}

/** What a hold needs to know. */
export interface Wanted {
  cause: Cause;
  /** What has to come before. */
  due?: Pick<Due, 'hasCome'> | null;
  /** The number of the last act of the user that this takes. */
  needed?: number;
  /** Milliseconds after which the hold is released, whatever has come. */
  length?: number | null;
}

/** A race that is to come in the other order. */
export interface Reversal {
  cause: Cause;
  race: Race;
  /** What its two accesses are in any run. */
  sides: [AccessIdentity, AccessIdentity];
  isLoose: boolean;
  needed: number;
  length?: number;
}

/** What holds a race in its recorded order. */
export interface OrderHold {
  cause: Cause;
  race: Race;
  /** The access that has to come before. */
  side: AccessIdentity;
  needed: number;
}

/** A run of the page that is over. */
export interface Run {
  name: string;
  text: string;
  keys: Keys;
  end: End;
  recorder: Recorder;
}

/** A further run: its trace is in a file. */
export interface FurtherRun extends Run {
  names: Names;
  file: string;
}

/** Whether a run has the two accesses of a race in the other order. */
export interface JudgedRun {
  isTurned: boolean;
  /** Why it has not. */
  why?: string;
  /** Whether the second access did not come in time, so that looser names might find it. */
  isLate?: boolean;
  /** Whether the analyzer lists the two accesses as a race there. */
  isListed?: boolean;
  /** The two actions, as they came. */
  pair?: [number, number];
  note?: string;
}

/** A run for a race, as one of several. */
export interface Attempt extends JudgedRun {
  run: FurtherRun;
  /** The other races that came in another order. */
  astray: Race[];
  /** What held other races in their order. */
  kept: OrderHold[];
  /** For how many milliseconds the cause was held. */
  heldFor: number;
}

/** An attempt that reversed its race. */
export interface Reversed extends Attempt {
  reversal: Reversal;
}

export interface Difference {
  kind: string;
  subject: string;
  /** Whether a user or an author can notice it. */
  isSeen: boolean;
  isOfUser?: boolean;
  recorded: string;
  other: string;
  boxes?: number[][];
  /** The numbers of the other races that it comes from, if this is known (attribution.js). */
  from?: number[];
}

/** What a run in which a race was reversed says of other races, by their numbers. */
export interface Turned {
  /** Those that came in the other order too. */
  races: number[];
  /** Of these and the race itself: those whose handler ran and only read. */
  readers: number[];
  /** By difference: those of them that both write what differs, or whose handler it is. */
  owners: number[][];
}

/** What differs in the other order. */
export interface Found {
  differences: Difference[];
  beside: Difference[];
  unsteady: Difference[];
  byDelay: Difference[];
  astray: number[];
  isListed?: boolean;
  isSteady?: boolean;
  isSeenTwice?: boolean;
  isSeenWithDelay?: boolean;
  picture?: string;
}

/** In which runs a race came in which order, by their names. */
export interface Chance {
  kept: string[];
  turned: string[];
  implied: string[];
}

/** The other races of a group by how they came, by their numbers. */
export interface GroupOrders {
  turned: number[];
  kept: number[];
  gone: number[];
}

/** The verdict on a race. */
export interface Result extends Partial<Found> {
  verdict: 'turned' | 'not turned';
  why?: string;
  means?: string;
  note?: string;
  group?: GroupOrders;
  order?: Ordered;
  chance?: Chance | null;
  comparedAt?: string;
  unsent?: string[];
  trace?: string;
  turned?: Turned;
  /** Whether its handler ran and only read; whether a difference is at what both sides write (attribution.js). */
  isReader?: boolean;
  isProven?: boolean;
}
