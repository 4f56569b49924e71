'use strict';
// Compares Chromium's own timeline of a page with the actions that the recorder began in it, which page/recording/stamps.js shows there.

const { FIRST_FOREIGN_TIMEOUT } = require('../common/numbers.js');

/**
 * @typedef {{name: string, ph: string, ts: number, dur?: number, pid: number, tid: number, args: any}} TimelineEvent of the protocol's Tracing domain
 * @typedef {{name: string, start: number, end: number, what: string, begins: string[], hasEntered: boolean, isInside: boolean, calls: string[]}} Span an event that
 *   lasts; `isInside` if code of an action ran as it began; `calls` are the functions that it called
 * @typedef {{kind: string, place: string}} Missing
 */

/** Events that run script of the page, and the action that each has. */
const ACTIONS = {
  'TimerFire': /^(timer|tick) /,
  'FireAnimationFrame': /^(anim|tick) /,
  'FireIdleCallback': /^tick /,
  'EvaluateScript': /^(exec|tick) /,
  'v8.evaluateModule': /^(module|exec) /,
};
/** The browser has timers and idle callbacks of its own, without any script. */
const WITH_CALL = new Set(['TimerFire', 'FireAnimationFrame', 'FireIdleCallback']);
/** In which events an action can begin. Others begin in several ways; that a channel of broadcasts has a message is no event. */
const EVENTS = { timer: ['TimerFire'], anim: ['FireAnimationFrame'], exec: ['EvaluateScript', 'v8.evaluateModule'] };
/** The events that show what calls a handler. */
const AROUND = new Set(['EventDispatch', 'XHRReadyStateChange', 'XHRLoad', 'HandlePostMessage', 'TimerFire', 'FireAnimationFrame', 'FireIdleCallback']);
/** The recorder's function around each handler of the page (page/events/handlers.js). */
const HANDLER = 'wrapped';
const STAMP = /^er (begin|enter|leave|own|over) ?(.*)$/;

/**
 * The frames of the pages that the browser opens for itself, in which it shows the options of a `select` and the like: they are no part of the page, and
 * nothing loads them.
 * @param {TimelineEvent[]} events
 */
function popupsOf(events) {
  const facts = events.flatMap(({ name, args }) => (args?.data?.frame ? [{ name, frame: String(args.data.frame), isMain: args.data.isMainFrame === true }] : []));
  const popups = new Set(facts.filter(({ isMain }) => isMain).map(({ frame }) => frame));
  for (const { name, frame } of facts) if (name === 'CommitLoad' || name === 'TimeStamp') popups.delete(frame);
  return popups;
}

/** @param {TimelineEvent} event */
const stampOf = (event) => (event.name === 'TimeStamp' ? STAMP.exec(event.args?.data?.message || '') : null);

class TimelineMatch {
  /**
   * @param {TimelineEvent[]} events
   * @param {string} recorder the address of the recorder's script in the page
   */
  constructor(events, recorder) {
    this.recorder = recorder;
    /** @type {Map<string, {seen: number, missing: Missing[]}>} */
    this.kinds = new Map();
    /** @type {string[]} the lines of the actions that began */
    this.begun = [];
    /** @type {Span[]} what lasts now, the outermost first */
    this.open = [];
    this.depth = 0;
    /** @type {Span|null} a script in which nothing has begun */
    this.empty = null;
    /** Whether the recording is over: the page goes on. */
    this.isOver = false;
    for (const event of this.ofPage(events)) this.take(event);
    this.closeUntil(Infinity);
    this.takeEmpty(false);
  }

  /**
   * The events of the page's main thread, by time; of those that begin together the longer one first.
   * @param {TimelineEvent[]} events
   */
  ofPage(events) {
    const first = events.find(stampOf);
    if (!first) return [];
    const popups = popupsOf(events);
    const own = events.filter(({ pid, tid, ph, name, args }) => pid === first.pid && tid === first.tid && (ph === 'X' || name === 'TimeStamp') && !popups.has(args?.data?.frame));
    return own.sort((a, b) => a.ts - b.ts || (b.dur || 0) - (a.dur || 0));
  }

  /** @param {TimelineEvent} event */
  take(event) {
    this.closeUntil(event.ts);
    const stamp = stampOf(event);
    if (stamp) this.takeStamp(stamp[1], stamp[2]);
    else if (event.ph === 'X') this.openSpan(event);
  }

  /**
   * @param {string} word
   * @param {string} rest
   */
  takeStamp(word, rest) {
    if (word === 'enter') this.depth++;
    if (word === 'leave') this.depth = Number(rest);
    if (word === 'over') this.takeOver();
    if (word === 'begin') this.takeBegin(rest);
    for (const span of this.open) {
      if (word === 'enter') span.hasEntered = true;
      else if (word === 'begin' || word === 'own') span.begins.push(word === 'own' ? 'own' : rest);
    }
  }

  takeOver() {
    this.takeEmpty(false);
    this.isOver = true;
  }

  /** @param {string} line */
  takeBegin(line) {
    const [word] = line.split(' ');
    const within = EVENTS[/** @type {keyof EVENTS} */ (word)];
    this.begun.push(line);
    const isOfEmpty = this.takeEmpty(word === 'exec' && /^EventDispatch (load|error)$/.test(this.around()));
    if (within) this.count(`action ${word}`, isOfEmpty || this.open.some(({ name }) => within.includes(name)), line);
  }

  /** @param {Span} span of a script */
  waitForEmptyRun(span) {
    this.takeEmpty(false);
    this.empty = span;
  }

  /**
   * A script that cannot declare its names, as one that comes twice, runs no code: its empty run begins with its load event.
   * @param {boolean} isThere whether this run begins now
   */
  takeEmpty(isThere) {
    if (!this.empty) return false;
    this.count(this.empty.name, isThere, this.empty.what);
    this.empty = null;
    return isThere;
  }

  /** @param {TimelineEvent} event */
  openSpan({ name, ts, dur = 0, args }) {
    const { functionName = '', url = '', lineNumber = 0, type = '' } = args?.data || {};
    if (name === 'FunctionCall') this.open.forEach(({ calls }) => calls.push(`${functionName || 'a function'} at ${url}:${lineNumber}`));
    if (name === 'FunctionCall' && url && url !== this.recorder) this.takeCall(`${functionName || 'a function'} at ${url}:${lineNumber}`);
    const isHandler = name === 'FunctionCall' && url === this.recorder && functionName === HANDLER;
    const what = name === 'EventDispatch' ? `EventDispatch ${type}` : name === 'EvaluateScript' ? url : isHandler ? HANDLER : '';
    this.open.push({ name, start: ts, end: ts + dur, what, begins: [], hasEntered: false, isInside: this.depth > 0, calls: [] });
  }

  /**
   * A function of the page that the browser calls itself: an action has begun in what runs, or the code of one runs.
   * @param {string} place
   */
  takeCall(place) {
    const isInside = this.depth > 0 || (this.open.length > 0 && this.open[0].begins.length > 0);
    this.count('call of the page\'s function', isInside, `${place}, in ${this.around() || 'nothing'}`);
  }

  /** @param {number} time */
  closeUntil(time) {
    while (this.open.length && this.open[this.open.length - 1].end <= time) this.close(/** @type {Span} */ (this.open.pop()));
  }

  /** @param {Span} span */
  close(span) {
    const { name, what, begins, hasEntered, isInside, calls } = span;
    const expected = ACTIONS[/** @type {keyof ACTIONS} */ (name)];
    if (what === HANDLER) this.count(`handler in ${this.around() || 'nothing'}`.replace(/ EventDispatch .*$/, ' EventDispatch'), hasEntered, this.around());
    else if (name === 'EvaluateScript' && what && what !== this.recorder && !begins.length && !isInside) this.waitForEmptyRun(span);
    else if (expected && what !== this.recorder && !begins.includes('own') && (calls.length || !WITH_CALL.has(name))) {
      const kind = name === 'EvaluateScript' && !what ? `${name} without an address` : name;
      this.count(isInside ? `${kind} inside an action` : kind, isInside || begins.some((line) => expected.test(line)), what || calls[0] || '');
    }
  }

  around() {
    for (let k = this.open.length - 1; k >= 0; k--) {
      const { name, what } = this.open[k];
      if (AROUND.has(name)) return what || name;
    }
    return '';
  }

  /**
   * @param {string} kind
   * @param {boolean} isThere
   * @param {string} place
   */
  count(kind, isThere, place) {
    if (this.isOver && !kind.endsWith('in the trace')) return;
    const known = this.kinds.get(kind) || { seen: 0, missing: [] };
    this.kinds.set(kind, known);
    known.seen++;
    if (!isThere) known.missing.push({ kind, place });
  }

  /**
   * Which actions that began in the page are in the trace.
   * @param {string[]} lines of the trace
   */
  compareTrace(lines) {
    const inTrace = new Set(lines.map((line) => line.split(' ').slice(0, 2).join(' ')));
    for (const line of this.begun) {
      const [word, number] = line.split(' ');
      if (['timer', 'anim', 'message', 'exec'].includes(word)) this.count(`${word} in the trace`, isIn(inTrace, word, number), line);
    }
  }

  /** @returns {Missing[]} */
  missing() {
    return [...this.kinds.values()].flatMap(({ missing }) => missing);
  }
}

/**
 * A timeout of a frame, and what version 2 has no record for, are turns of an interval in the trace.
 * @param {Set<string>} inTrace
 * @param {string} word
 * @param {string} number
 */
function isIn(inTrace, word, number) {
  return inTrace.has(`${word} ${number}`) || (word === 'timer' && inTrace.has(`tick ${FIRST_FOREIGN_TIMEOUT + Number(number)}`)) || (word === 'message' && !inTrace.has('message 1'));
}

module.exports = { TimelineMatch };
