// Timeouts, intervals, animation frames and idle callbacks. `setTimeout`, `setInterval`, `requestAnimationFrame` and `requestIdleCallback` are replaced
// (hooked), and their callbacks wrapped.

import { each, joined, keep, mapped, takeFirst } from '../core/lists.js';
import { replaceMethod } from '../core/replacing.js';
import { settings } from '../core/settings.js';
import { fits } from '../core/strings.js';
import { Math, Number, String, apply } from '../core/taken.js';
import { MADE_OF_TEXT } from '../log/log.js';
import { nameOfFunction } from '../log/values.js';
import { isBefore } from '../recording/order.js';

/** The HTML Standard, "Timers": after so many nested ones a delay is at least so many milliseconds. */
const DEEPEST_UNCLAMPED = 5;
const LEAST_OF_NESTED = 4;
/** So many callbacks of timeouts are remembered. */
const MOST_RAN = 6;

/** @typedef {import('../types').PageWindow} PageWindow */
/** @typedef {import('../types').Moment} Moment */
/** @typedef {import('../types').TraceEvent} TraceEvent */
/**
 * A callback in a queue: who asked for it, the one before it in order, its end, and why it comes after that.
 * @typedef {{asker: TraceEvent, before: InQueue|null, ends: (Moment|null)[], why: string}} InQueue
 */
/**
 * The callback of a timeout: its number, its delay, who set it, and its event.
 * @typedef {{timeout: number, delay: number, asker: TraceEvent, event: TraceEvent}} RanTimeout
 */

/** One for each document: `page.timers`. */
class Timers {
  /** @param {import('../types').Page} page */
  constructor(page) {
    this.page = page;
    this.recording = page.recording;
    /**
     * The animation callback of this window that was asked for last, if it is not the first window.
     * @type {InQueue|null}
     */
    this.lastFrame = null;
    /**
     * The last callbacks of timeouts.
     * @type {RanTimeout[]}
     */
    this.ran = [];
  }

  /** Hooks timers, frames and idle callbacks. One call per document, before its code runs. */
  start() {
    const { window } = this.page;
    this.#replaceTimeout(window);
    this.#replaceInterval(window);
    each(['requestAnimationFrame', 'webkitRequestAnimationFrame', 'requestIdleCallback'], (name) => {
      if (window[name]) this.#replaceFrame(window, name);
    });
    this.recording.steering.watchClearing(window); // clearing is no access, so a plain recording does not see it
  }

  /**
   * The delay as a browser takes it: whole, the low 32 bits, not below 0. Called by chaos.js.
   * @param {unknown} given
   */
  delay(given) {
    return Math.max(Math.trunc(Number(given)) | 0, 0);
  }

  /** How deep the timer is nested in which the running code sets another one: 0 where no timer runs. */
  #nesting() {
    const { recording } = this;
    return recording.isRunning() ? recording.nesting : 0;
  }

  /**
   * The delay that the Standard compares. Called by chaos.js.
   * @param {number} delay
   */
  clamped(delay) {
    return this.#nesting() > DEEPEST_UNCLAMPED ? Math.max(delay, LEAST_OF_NESTED) : delay;
  }

  /**
   * The code of a callback; a text is run as a script is.
   * @param {unknown} callback
   */
  #callable(callback) {
    if (typeof callback === 'function') return callback;
    const code = String(callback);
    this.recording.log.miss(MADE_OF_TEXT);
    this.recording.unmarked.noteText(code);
    const { window } = this.page;
    return () => this.#evaluate(window, code);
  }

  /**
   * A text that the page's content policy forbids does nothing.
   * @param {PageWindow} window
   * @param {string} code
   */
  #evaluate(window, code) {
    try {
      window.eval(code);
    } catch (fault) {
      if (!(fault instanceof window.EvalError) || !fits(/Content Security Policy/, fault.message)) throw fault;
    }
  }

  /**
   * Writes the name of a callback, if it has one.
   * @param {string} kind
   * @param {number} number
   * @param {unknown} callback
   */
  #nameCallback(kind, number, callback) {
    const name = nameOfFunction(callback);
    if (name) this.recording.log.name(kind, number, { function: name });
  }

  /**
   * Runs a callback in a task.
   * @param {string} line its begin
   * @param {'timer'|'tick'} kind
   * @param {TraceEvent|null} asker
   * @param {Function} callback
   * @param {any[]} words whatever the page passes
   * @param {{requested: import('./ended-callbacks.js').Requested, place?: InQueue|null, nesting?: number, timeout?: number, delay?: number}} more `place` of a
   *   callback in a queue, `nesting`: how deep a timer is nested, the number and the delay of a timeout
   */
  #run(line, kind, asker, callback, words, { requested, place = null, nesting = 0, timeout, delay = 0 }) {
    const { recording, page } = this;
    if (recording.isOver) return settings.standsStill ? undefined : apply(callback, page.window, words);
    recording.startTask();
    recording.nesting = nesting;
    recording.begin(line, kind, undefined, [asker]);
    recording.running.timeout = timeout;
    requested.ran = recording.task;
    if (timeout && asker) this.#noteRan({ timeout, delay, asker, event: recording.running });
    if (place?.before) {
      page.joins.here(place.before.ends, place.why);
      place.before = null;
    }
    recording.enter('callback');
    try {
      return apply(callback, page.window, words);
    } finally {
      if (place) place.ends = [recording.moment()];
      recording.leave();
    }
  }

  /**
   * The callback of a timeout comes after those of others that were set before it with no greater delay.
   * @param {RanTimeout} one
   */
  #noteRan(one) {
    const before = joined(this.ran);
    const isEarlier = (/** @type {RanTimeout} */ { timeout, delay, asker }) => timeout < one.timeout && delay <= one.delay && isBefore(one.asker, asker);
    one.event.earlier = () => mapped(keep(before, isEarlier), ({ event }) => event);
    this.ran[this.ran.length] = one;
    const oldest = this.ran.length > MOST_RAN ? takeFirst(this.ran) : undefined;
    if (oldest) oldest.event.earlier = undefined; // else all events would be kept
  }

  /**
   * A timeout is a `set` where it is requested, and a `timer` where it runs.
   * @param {PageWindow} window
   */
  #replaceTimeout(window) {
    const timers = this;
    const { recording, page } = this;
    const { steering } = recording;
    replaceMethod(window, 'setTimeout', (native) => function setTimeout(callback, delay, ...words) {
      if (recording.isOver) return apply(native, window, joined([callback, delay], words));
      const timeout = recording.next('timeout');
      // a setter that was not seen is no event, so the timeout gets order from nothing
      const isKnown = recording.isRunning();
      const nesting = timers.#nesting() + 1;
      const compared = timers.clamped(timers.delay(delay));
      recording.noteAsking(`set ${timeout} ${compared} ${isKnown ? page.number : 'unknown'}`);
      timers.#nameCallback('timeout', timeout, callback);
      const hold = steering.asks('set');
      const callable = timers.#callable(callback);
      const asker = recording.running;
      /** @type {import('./ended-callbacks.js').Requested} */
      const requested = { queue: 'timeout', number: timeout };
      const run = steering.limited('set', () => timers.#run(`timer ${timeout}`, 'timer', isKnown ? asker : null, callable, words, { requested, nesting, timeout, delay: compared }));
      const given = apply(native, window, [steering.callback(hold, run, (again) => apply(native, window, [again, 0])), delay]);
      return steering.note(hold, window, 'timers', timers.page.endedCallbacks.request('timers', given, requested));
    });
  }

  /**
   * An interval is an `every` where it is requested, and each of its runs a `tick`.
   * @param {PageWindow} window
   */
  #replaceInterval(window) {
    const timers = this;
    const { recording } = this;
    const { steering } = recording;
    replaceMethod(window, 'setInterval', (native) => function setInterval(callback, delay, ...words) {
      if (recording.isOver) return apply(native, window, joined([callback, delay], words));
      const interval = recording.next('interval');
      let nesting = timers.#nesting();
      recording.noteAsking(`every ${interval} ${timers.delay(delay)}`);
      recording.log.name('interval', interval, { why: 'setInterval', function: nameOfFunction(callback) });
      const hold = steering.asks('every');
      const callable = timers.#callable(callback);
      const asker = recording.running;
      /** @type {import('./ended-callbacks.js').Requested} */
      const requested = { queue: 'interval', number: interval };
      const run = steering.limited('every', () => timers.#run(`tick ${interval}`, 'tick', asker, callable, words, { requested, nesting: ++nesting }));
      const given = apply(native, window, [steering.callback(hold, run, (again) => again()), delay]);
      return steering.note(hold, window, 'timers', timers.page.endedCallbacks.request('timers', given, requested));
    });
  }

  /**
   * Animation callbacks of one window come in the order in which they were asked for. Those of the first window have a record that says so, and which
   * would put those of two windows in order too: the other windows have none.
   */
  #placeOfFrame() {
    const { recording, lastFrame } = this;
    if (!recording.isRunning()) return null;
    const isAfter = lastFrame && (lastFrame.asker === recording.running || recording.isBeforeRunning(lastFrame.asker));
    this.lastFrame = { asker: recording.running, before: isAfter ? lastFrame : null, ends: [], why: 'the end of an animation callback' };
    return this.lastFrame;
  }

  /**
   * An animation frame has a record of its own in version 3, and is an interval that ticks once before.
   * @param {PageWindow} window
   * @param {string} name
   */
  #replaceFrame(window, name) {
    const timers = this;
    const { recording, page } = this;
    const { steering } = recording;
    const isIdle = name === 'requestIdleCallback';
    const isQueue = isIdle || page.number !== 0;
    const words = isQueue ? ['every', 'tick'] : ['ask', 'anim'];
    replaceMethod(window, name, (native) => function request(callback, ...rest) {
      if (recording.isOver || typeof callback !== 'function') return apply(native, window, joined([callback], rest));
      const number = recording.next('interval');
      recording.noteAsking(isQueue ? `every ${number} 0` : `ask ${number}`);
      recording.log.name('interval', number, { why: name, function: nameOfFunction(callback) });
      const hold = steering.asks(words[0]);
      const asker = recording.running;
      const place = isQueue && !isIdle ? timers.#placeOfFrame() : null;
      /** @type {import('./ended-callbacks.js').Requested} */
      const requested = { queue: 'interval', number };
      const run = steering.limited(words[0], (time) => timers.#run(`${words[1]} ${number}`, 'tick', asker, callback, [time], { requested, place }));
      const ask = (/** @type {import('../types').Callback} */ next) => apply(native, window, joined([next], rest));
      const queue = isIdle ? 'idle' : 'frames';
      return steering.note(hold, window, queue, page.endedCallbacks.request(queue, ask(steering.callback(hold, run, ask)), requested));
    });
  }
}

export { Timers };
