// Types of what the modules of page/ know from outside, for the type check alone.

/** Names that the recorder knows, and no page (page-script.js). */
export interface OwnNames {
  /** The binding through which the page's half sends its lines. */
  binding: string;
  /** What the driver and the recorders of frames pass to get the recording. */
  secret: string;
}

/** What a recording passes to the page (page-script.js). */
export interface Settings extends OwnNames {
  /** The interfaces of the browser that have `on..` properties. */
  handlerOwners: string[];
  /** The event handler attributes that elements have, as `onclick`. */
  handlerNames: readonly string[];
  depth: 'globals' | 'objects';
  /** All accesses, also those that the rules leave out. */
  keepsAll: boolean;
  /** The names of the files of libraries. */
  libraries: RegExp | null;
  /** How little a file says to a reader: 0 of the page's own code, 1 of a file that was made small, 2 of a library. */
  foreignness(address: string, libraries: RegExp | null, find: PatternTools['find']): 0 | 1 | 2;
  /** How the browser runs a script, by its attributes (common/html.js). */
  scriptType(type: string | null, language: string | null, tools: PatternTools): 'classic' | 'module' | 'importmap' | null;
  /** The code of a `javascript:` address (common/html.js). */
  codeOfAddress(address: string, decode: (text: string) => string, tools: PatternTools): string | null | undefined;
  /** Where the ranges of numbers begin (common/numbers.js). */
  numbers: { FIRST_FIELD: number, FIRST_OBJECT: number };
  /** What a replay holds back. */
  holds: (Hold | null)[] | null;
  /** The chance of the run. */
  fixed: { seed: number, date: number } | null;
  /** Whether another program runs code of its own in the page. */
  isDriven: boolean;
  /** Whether the page stands still when the recording is over. */
  standsStill: boolean;
  /** How many turns a page takes that never rests (replay/found/turns.js). */
  turns: { word: string, place: string, count: number } | null;
  /** The seed of what is held back by chance (tasks/chaos.js), or null. */
  chaos: number | null;
  /** Whether each begin of an action is shown in the browser's own timeline (recording/stamps.js). */
  stamps: boolean;
  /** The helpers that answer one of their words, by the number of the word. */
  answers: string[];
  /** The helpers that answer nothing. */
  withoutAnswer: string;
  /** Where marks begin and end in a text, and what takes them out (instrument/marks/delimiters.js). */
  marks: { inBlanks: Delimiters, inComments: Delimiters };
  textWithoutMarks(text: string, marks: Settings['marks'], tools: TextTools): string;
}

export interface Delimiters {
  begin: string;
  end: string;
  afterSlash: string;
}

/** What finds and cuts parts of texts. */
export interface TextTools {
  indexOf(text: string, part: string, from: number): number;
  slice(text: string, start: number, end?: number): string;
}

/**
 * What is held back: its note in the log (`set`, `every`, `ask`, `post`, `on` or `send`), the place of the code in the browser's copy, the way of the
 * calls that led there ('' if only the place is known), and which of those with both it is; or `load` with the page's address. With `event`, an
 * event at the target of the handler that is noted, or at an element.
 */
export interface Hold {
  id: number;
  word: string;
  place?: string;
  way?: string;
  nth?: number;
  address?: string;
  source?: string;
  event?: { type: string, nth: number, tag?: string, id?: string, source?: string };
  /** In place of `place` and `way`: where they are in the browser's copy. */
  spots?: (Spot | null)[];
}

/** Where a place of the source is in the browser's copy: `address:line:`, and the columns from which it stands. */
export interface Spot {
  line: string;
  from: number;
  to: number;
}

/** A hold, and how far it is. */
export interface Held extends Hold {
  /** How often code has asked for it. */
  asked: number;
  isLet: boolean;
  /** What waits, and the receiver of a message, or the target of an event. */
  waiting: Waiting[];
  /** The number that the page got for a callback, and of which window and queue it is. */
  request: { window: PageWindow, queue: string, number: number } | null;
  /** Whether the page has cleared the callback. */
  isCleared: boolean;
  /** The target whose events are held back, and how many have been met. */
  target: EventTarget | null;
  met: number;
  /** What the window's load waits for. */
  image?: HTMLImageElement;
}

/** What is held back: its release, and the receiver of a message or the target of an event. */
export interface Waiting {
  go(): void;
  receiver?: unknown;
  target?: EventTarget | null;
}

/** An event of the trace: an action is a part of one. */
export interface TraceEvent {
  /** Its keyword in the trace, or 'begin', 'handler' or 'none'. */
  kind: string;
  /** Events that a rule puts before it. */
  after: TraceEvent[];
  /** The number of the document of which it is a parse step. */
  parsed?: number;
  /** The number of the timeout that runs in it. */
  timeout?: number;
  /** The page whose parser waits for it. */
  blocks?: Page;
  /** The page whose load event waits for it. */
  awaits?: Page;
  /** The event in which its inline dispatch was called. */
  insideOf?: TraceEvent;
  /** Whether a job in it came after events that no rule puts before it. */
  hasLateJobs?: boolean;
  /** Whether it stands for a point in `insideOf` (`Recording.point`). */
  isPoint?: boolean;
  /** Of a timeout's callback: those of other timeouts that come before it in each browser. */
  earlier?(): TraceEvent[];
}

/** An action, named when it might be over (`Recording.moment`). */
export interface Moment {
  action: number;
  event: TraceEvent;
  /** The dispatch of a point in an event (`Recording.point`), and the element of it, which has no name before something comes after the point. */
  point?: number;
  element?: number;
}

/** Moments as they are collected: without some that were not recorded. */
export type Moments = ArrayLike<Moment | null | undefined>;

/** What an event is dispatched at: an element, a document, a window, a request. What is no node has none of these members. */
export interface Target extends EventTarget {
  nodeType?: number;
  localName?: string;
  ownerDocument?: Document | null;
}

/** A dispatch as it is made; `Recording.push` adds the rest. */
export interface NewDispatch {
  number: number;
  isInline: boolean;
  /** The event that called it, if it is inline. */
  suspended?: TraceEvent;
  /** The event of its first record, and those of its handlers, as many as are searched. */
  beginning?: TraceEvent;
  ran?: TraceEvent[];
  /** Its record without its number, if the next one with this place comes after it (rule 17). */
  place?: string;
  event?: Event;
  target?: Target;
  /** The group of the handler that ran last, and what distinguishes it from the next one. */
  group?: number;
  visit?: string;
  /** The page whose load event waits for it. */
  awaits?: Page;
  /** Events before it, by a rule or by a handler in it (reach/controls.js). */
  comesAfter?: TraceEvent[];
  /** The start of a key that can change the field at which it is pressed. */
  pressed?: Moment;
  /** Actions after which its handlers come, the reason, and the events that have been written for them. */
  moments?: Moments | null;
  why?: string;
  toldEvents?: TraceEvent[];
  whenClosed?(): void;
  /** Which end of loading it is. */
  end?: 'dcl' | 'load';
  /** Of promise reactions: the promise, whether a reaction comes after several events, and whether it is code after an `await`. */
  promise?: unknown;
  hasJoined?: boolean;
  isContinuation?: boolean;
}

/** A dispatch that is not over. */
export interface Dispatch extends NewDispatch {
  /** How many contexts were on the stack when it began. */
  depth: number;
  /** How many of its handlers run. */
  active: number;
  isClosed: boolean;
  /** When it began, or its last handler ended, in milliseconds. */
  lastTime: number;
  /** The number of its browser task. */
  task: number;
}

/** A message that was posted and has not arrived. */
export interface PostedMessage {
  message: number;
  standIn: number;
  sender: TraceEvent | null;
  ports: MessagePort[];
}

/** A run of modules: one that is imported, and after it in the same turn what imports it (modules.js). */
export interface ModuleRun {
  number: number;
  /** The script element, once it is known, or 0. */
  element: number;
  /** The address that `import()` got, or ''. */
  asked: string;
  /** Where its modules have ended. */
  ends: Moment[];
  event: TraceEvent;
  /** Its start. */
  moment: Moment | null;
}

/** Where a line comes from: the number of a site in instrumented code, or a place on the stack; '' if it has none. */
export type Place = number | string;

/** The name of a variable: the index of an item as a number. */
export type VariableName = string | number;

/** How an access touches a variable: 'r' reads, 'w' writes, 'u' does both, 'U' counts, 'd' defines or deletes. */
export type Modes = 'r' | 'w' | 'u' | 'U' | 'd';

/** What an access found: a digest, or a function that returns the value. */
export type Found = string | undefined | (() => unknown);

/** What the log says of a number: members of a line of JSON. */
export type Facts = { [name: string]: unknown };

/** A call on the stack, as V8 gives it to `prepareStackTrace`. */
/** What functions that both halves have use of texts (core/strings.js). */
export interface PatternTools {
  find(pattern: RegExp, text: string): RegExpExecArray | null;
  slice(text: string, start: number, end?: number): string;
}

export interface CallSite {
  getScriptNameOrSourceURL(): string | null;
  getLineNumber(): number | null;
  getColumnNumber(): number | null;
}

/** A function of the browser, or one in its place: the receiver and the arguments are whatever the page passes. */
export interface Method {
  (this: any, ...args: any[]): any;
  apply(receiver: any, args?: ArrayLike<any>): any;
  call(receiver: any, ...args: any[]): any;
}

/** A callback of the browser. */
export type Callback = (...args: any[]) => void;

/** The getter and the setter of a property of the browser, or those in their place. */
export interface Accessors {
  get(this: any): any;
  set(this: any, value: any): void;
}

/** Writes a text to the driver. */
export type Send = (text: string) => void;

/** A window of the page. It has interfaces that the type check does not know, and whatever the page puts there. */
export type PageWindow = Window & typeof globalThis & { [name: string]: any };
export type Page = import('./page').Page;
export type Recording = import('./recording/recording').Recording;
export type Objects = import('./objects/objects').Objects;
export type Holder = import('./objects/holders').Holder;
export type Variable = import('./objects/holders').Variable;
export type Messages = import('./events/messages').Messages;
export type Natives = ReturnType<typeof import('./core/natives').takeNatives>;

declare global {
  /** The parameter of the bundle. */
  const given: Settings;

  interface ErrorConstructor {
    stackTraceLimit: number;
    prepareStackTrace?: (error: Error, calls: import('./types').CallSite[]) => unknown;
  }
}
