// Chaos: what a page schedules comes later than the browser would have it come, by seeded amounts (`er_record --chaos`). The functions here are in
// place of the browser's before the recorder's own are. What the standard orders stays in order: timers of one document of which the earlier one has no
// greater delay, frames, idle callbacks, and messages of one port or to one window.

import { each, findItem, hasItem, keep } from '../core/lists.js';
import { replaceMethod } from '../core/replacing.js';
import { settings } from '../core/settings.js';
import { Map, Math, Number, apply } from '../core/taken.js';

/** The most milliseconds for which each kind is held back; about half of each are not. */
const MOST = { timeout: 60, idle: 80, message: 25 };
/** One of so many frames is skipped, and never more than so many in a row. */
const FRAMES = 3;
const MOST_FRAMES = 2;
/** Chromium runs a timeout of so many milliseconds or more up to 8 milliseconds late, then also after a shorter one that is due in between. */
const LEAST_LENIENT = 32;
const LENIENCE = 10;

/**
 * @typedef {{delay: number, due: number, number: number}} Pending a timeout that has not run: its delay, when it is due, and the browser's number
 * @typedef {{number: number, until?: number}} Request the browser's number of a callback by now; of an idle callback, when it is held back no more
 * @typedef {{from: object, posts: (() => void)[]}} Queue messages that wait
 */

/** One for each document: `page.chaos`. */
class Chaos {
  /** @param {import('../types').Page} page */
  constructor(page) {
    this.page = page;
    this.natives = page.natives;
    /** @type {{[kind: string]: number}} how many of each kind there were */
    this.counts = { timeout: 0, idle: 0, message: 0, frame: 0 };
    /** @type {Pending[]} */
    this.timeouts = [];
    /** @type {Map<number, Request>} by the number that the page has */
    this.frames = new Map();
    /** @type {Map<number, Request>} */
    this.idles = new Map();
    /** @type {Request[]} in the order in which they were requested */
    this.waitingIdles = [];
    /** @type {Queue[]} */
    this.queues = [];
    this.frame = { time: -1, isSkipped: false, inRow: 0 };
  }

  /** Hooks what schedules, if the recording has `--chaos`. */
  start() {
    if (settings.chaos === null) return;
    const { window } = this.page;
    this.#replaceTimeout(window);
    this.#replaceInterval(window);
    each(['requestAnimationFrame', 'webkitRequestAnimationFrame'], (name) => this.#replaceFrame(window, name));
    each(['cancelAnimationFrame', 'webkitCancelAnimationFrame'], (name) => this.#replaceCancelling(window, name, this.frames));
    this.#replaceIdle(window);
    this.#replaceCancelling(window, 'cancelIdleCallback', this.idles);
    this.#replacePosting(window);
  }

  /**
   * A number from 0 up to 1 for the next of a kind, the same in each run with the seed.
   * @param {string} kind
   */
  #next(kind) {
    this.counts[kind]++;
    let value = (Number(settings.chaos) * 2654435761 + this.counts[kind] * 40503 + kind.length * 977 + this.page.number * 7919) >>> 0;
    value = Math.imul(value ^ (value >>> 16), 2246822507);
    value = Math.imul(value ^ (value >>> 13), 3266489909);
    return ((value ^ (value >>> 16)) >>> 0) / 4294967296;
  }

  /**
   * For how many milliseconds the next of a kind is held back.
   * @param {'timeout'|'idle'|'message'} kind
   */
  #amount(kind) {
    return Math.max(0, Math.round((this.#next(kind) * 2 - 1) * MOST[kind]));
  }

  // ---- timers

  /**
   * What waits for an earlier timeout is due later by the browser's clock too, and after its lenience: one without a delay would come before it.
   * @param {import('../types').PageWindow} window
   */
  #replaceTimeout(window) {
    replaceMethod(window, 'setTimeout', (native) => (callback, given, ...words) => {
      if (typeof callback !== 'function') return native.call(window, callback, given, ...words);
      const delay = this.#delayOf(given);
      const begin = this.natives.now();
      let due = begin + delay + this.#amount('timeout');
      each(this.timeouts, (one) => { if (one.delay <= delay) due = Math.max(due, one.due, begin + 1); });
      const later = Math.ceil(due - begin);
      const own = { delay, due: 0, number: 0 };
      own.number = native.call(window, (/** @type {unknown[]} */ ...args) => {
        this.#forget(own.number);
        apply(callback, window, args);
      }, later, ...words);
      own.due = this.natives.now() + later + (later < LEAST_LENIENT ? 1 : LENIENCE);
      this.timeouts[this.timeouts.length] = own;
      return own.number;
    });
    each(['clearTimeout', 'clearInterval'], (name) => replaceMethod(window, name, (native) => (...words) => {
      this.#forget(words[0]);
      return native.apply(window, words);
    }));
  }

  /**
   * A timeout runs, or is cleared.
   * @param {unknown} number as the page gives it
   */
  #forget(number) {
    const given = typeof number === 'string' ? Number(number) : number;
    this.timeouts = keep(this.timeouts, (one) => one.number !== given);
  }

  /**
   * The delay that the standard compares.
   * @param {unknown} given
   */
  #delayOf(given) {
    const { timers } = this.page;
    return timers.clamped(timers.delay(given));
  }

  /**
   * An interval is not held back, but its turns do not come before timeouts that were set earlier and have no greater delay.
   * @param {import('../types').PageWindow} window
   */
  #replaceInterval(window) {
    replaceMethod(window, 'setInterval', (native) => (callback, given, ...words) => {
      if (typeof callback !== 'function') return native.call(window, callback, given, ...words);
      const delay = this.#delayOf(given);
      let before = keep(this.timeouts, (one) => one.delay <= delay);
      const turn = (/** @type {unknown[]} */ ...args) => {
        before = keep(before, (one) => hasItem(this.timeouts, one));
        if (!before.length) apply(callback, window, args);
      };
      return native.call(window, turn, given, ...words);
    });
  }

  // ---- frames

  /**
   * A frame is skipped for all callbacks of the document.
   * @param {import('../types').PageWindow} window
   * @param {string} name
   */
  #replaceFrame(window, name) {
    replaceMethod(window, name, (native) => (callback, ...rest) => {
      if (typeof callback !== 'function') return native.call(window, callback, ...rest);
      return this.#requested(this.frames, (again) => native.call(window, (/** @type {number} */ time) => {
        if (this.#skipsFrame(time)) again();
        else callback(time);
      }));
    });
  }

  /**
   * Whether all callbacks of this animation frame wait for the next one: one chance for a frame, and at most MOST_FRAMES in a row.
   * @param {number} time
   */
  #skipsFrame(time) {
    const { frame } = this;
    if (time !== frame.time) {
      const isSkipped = frame.inRow < MOST_FRAMES && this.#next('frame') * FRAMES < 1;
      this.frame = { time, isSkipped, inRow: isSkipped ? frame.inRow + 1 : 0 };
    }
    return this.frame.isSkipped;
  }

  /**
   * Requests a callback, and again if it is held back; the page has the first number.
   * @param {Map<number, Request>} requests
   * @param {(again: () => void) => number} request
   */
  #requested(requests, request) {
    const one = { number: 0 };
    const again = () => { one.number = request(again); };
    again();
    const { number } = one;
    requests.set(number, one);
    return number;
  }

  /**
   * Hooks the call that cancels: the page has the number of a request that was put off.
   * @param {import('../types').PageWindow} window
   * @param {string} name
   * @param {Map<number, Request>} requests
   */
  #replaceCancelling(window, name, requests) {
    replaceMethod(window, name, (native) => (...words) => {
      const one = requests.get(words[0]);
      if (one && requests === this.idles) this.waitingIdles = keep(this.waitingIdles, (idle) => idle !== one);
      return native.call(window, one ? one.number : words[0], ...words.slice(1));
    });
  }

  /**
   * Idle callbacks without a time by which they have to come.
   * @param {import('../types').PageWindow} window
   */
  #replaceIdle(window) {
    replaceMethod(window, 'requestIdleCallback', (native) => (callback, ...rest) => {
      if (typeof callback !== 'function' || rest.length) return native.call(window, callback, ...rest);
      const own = { number: 0, until: this.natives.now() + this.#amount('idle') };
      const call = (/** @type {unknown} */ deadline) => {
        if (this.natives.now() < own.until || this.waitingIdles[0] !== own) {
          own.number = native.call(window, call);
          return;
        }
        this.waitingIdles = keep(this.waitingIdles, (one) => one !== own);
        callback(deadline);
      };
      own.number = native.call(window, call);
      this.waitingIdles[this.waitingIdles.length] = own;
      this.idles.set(own.number, own);
      return own.number;
    });
  }

  // ---- messages

  /**
   * Messages without ports or buffers that go along are copied at once, as the browser does, and posted later.
   * @param {import('../types').PageWindow} window
   */
  #replacePosting(window) {
    const chaos = this;
    const copy = window.structuredClone.bind(window);
    const { origin } = window;
    const isPlain = (/** @type {unknown} */ target) => target === undefined || target === '*' || target === '/' || target === origin;
    replaceMethod(window, 'postMessage', (native) => function postMessage(...words) {
      const mayWait = words.length === 1 || (words.length === 2 && isPlain(words[1]));
      return chaos.#post(window, mayWait, words, (given) => native.apply(window, given), copy);
    });
    const ports = window.MessagePort.prototype;
    replaceMethod(ports, 'postMessage', (native) => function postMessage(...words) {
      return chaos.#post(this, words.length === 1, words, (given) => native.apply(this, given), copy);
    });
    replaceMethod(ports, 'close', (native) => function close() {
      chaos.#postAll();
      return native.call(this);
    });
  }

  /**
   * Sends a message now, or later with those that wait before it.
   * @param {object} from the port, or the window
   * @param {boolean} mayWait
   * @param {unknown[]} words
   * @param {(words: unknown[]) => unknown} send
   * @param {(value: unknown) => unknown} copy
   */
  #post(from, mayWait, words, send, copy) {
    const wait = mayWait ? this.#amount('message') : 0;
    const queue = findItem(this.queues, (one) => one.from === from);
    if (!mayWait) this.#postAll(); // also the messages of a port that goes along
    if (!mayWait || (!queue && !wait)) return send(words);
    /** @type {unknown} */
    let message;
    try {
      message = copy(words[0]);
    } catch { // the browser's own function throws the error that the page expects
      this.#postAll();
      return send(words);
    }
    const later = () => { send([message, ...words.slice(1)]); };
    if (queue) queue.posts[queue.posts.length] = later;
    else this.#wait({ from, posts: [later] }, wait);
    return undefined;
  }

  /**
   * Posts what waits in a queue after some time.
   * @param {Queue} queue
   * @param {number} wait
   */
  #wait(queue, wait) {
    this.queues[this.queues.length] = queue;
    this.natives.setTimeout(() => { if (hasItem(this.queues, queue)) this.#postQueue(queue); }, wait);
  }

  /**
   * Posts all messages of a queue, in the order of the page.
   * @param {Queue} queue
   */
  #postQueue(queue) {
    this.queues = keep(this.queues, (one) => one !== queue);
    each(queue.posts, (post) => post());
  }

  #postAll() {
    each(this.queues, (queue) => this.#postQueue(queue));
  }
}

export { Chaos };
