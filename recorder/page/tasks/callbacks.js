// Functions that the browser is given and calls later, in tasks of their own that nothing else asks for. `scheduler.postTask`, `navigator.locks`, geolocation,
// `canvas.toBlob`, view transitions, drag and drop.

import { each, joined } from '../core/lists.js';
import { replaceGetter, replaceMethod } from '../core/replacing.js';
import { Set, WeakMap, apply } from '../core/taken.js';
import { isPlainObject } from '../core/things.js';
import { nameOfFunction } from '../log/values.js';

/**
 * By the interface and the method: which of the words may be such functions; of an object its property of the name.
 * @type {[owner: string, name: string, indices: number[], property?: string][]}
 */
const CALLBACKS = [
  ['Scheduler', 'postTask', [0]],
  ['LockManager', 'request', [1, 2]],
  ['Document', 'startViewTransition', [0], 'update'],
  ['Geolocation', 'getCurrentPosition', [0, 1]], ['Geolocation', 'watchPosition', [0, 1]],
  ['HTMLCanvasElement', 'toBlob', [0]],
  ['HTMLVideoElement', 'requestVideoFrameCallback', [0]],
  ['BaseAudioContext', 'decodeAudioData', [1, 2]],
  ['DataTransferItem', 'getAsString', [0]],
];

/** Those that return a promise which is settled after the callback. */
const PROMISES = new Set(['postTask', 'request']);
const TRANSITION = 'startViewTransition';
/** The promises of a view transition, in the order in which the browser settles them. */
const OF_TRANSITION = ['updateCallbackDone', 'ready', 'finished'];

/** @typedef {import('../types').PageWindow} PageWindow */
/** @typedef {import('../types').TraceEvent} TraceEvent */
/** @typedef {import('./promises.js').Several} Several */
/**
 * A call that the browser calls back: its name, its interval, its event, and for each promise of it where the callback has run.
 * @typedef {{name: string, number: number, event: TraceEvent|null, ends: Several[]}} Asked
 */

/** One for each document: `page.callbacks`. */
class Callbacks {
  /** @param {import('../types').Page} page */
  constructor(page) {
    this.page = page;
    this.recording = page.recording;
    /**
     * By view transition: what its promises come after.
     * @type {WeakMap<object, Several[]>}
     */
    this.transitions = new WeakMap();
  }

  /** Hooks the calls of the table above. One call per document, before its code runs. */
  start() {
    const { window } = this.page;
    each(CALLBACKS, ({ 0: owner, 1: name, 2: indices, 3: property }) => {
      if (window[owner]) this.#replaceCall(window[owner].prototype, name, indices, property);
    });
    if (window.ViewTransition) each(OF_TRANSITION, (name, k) => this.#replacePromise(window.ViewTransition.prototype, name, k));
  }

  /**
   * Puts a function of the recorder around one that gets callbacks.
   * @param {any} owner its members differ by interface
   * @param {string} name
   * @param {number[]} indices
   * @param {string|undefined} property
   */
  #replaceCall(owner, name, indices, property) {
    const callbacks = this;
    replaceMethod(owner, name, (native) => function ask() {
      const words = joined(arguments);
      const asked = callbacks.recording.isOver ? null : callbacks.#wrapWords(name, words, indices, property);
      const result = apply(native, this, words);
      if (asked && name === TRANSITION) callbacks.transitions.set(result, asked.ends);
      if (asked && PROMISES.has(name)) callbacks.page.promises.several.set(result, asked.ends[0]);
      return result;
    });
  }

  /**
   * What waits for a view transition comes after its callback, and after what its starter does when an earlier promise of it is settled.
   * @param {any} owner its members differ by interface
   * @param {string} name
   * @param {number} position of the promise among those of a transition
   */
  #replacePromise(owner, name, position) {
    const callbacks = this;
    replaceGetter(owner, name, (native) => function get() {
      const promise = apply(native, this, []);
      const ends = callbacks.transitions.get(this);
      if (ends) callbacks.page.promises.several.set(promise, ends[position]);
      return promise;
    });
  }

  /**
   * Returns what is known of the call, or null if no argument is a function.
   * @param {string} name
   * @param {any[]} words whatever the page passes
   * @param {number[]} indices
   * @param {string|undefined} property
   * @returns {Asked|null}
   */
  #wrapWords(name, words, indices, property) {
    /** @type {Asked[]} */
    const asked = [];
    const wrap = (/** @type {Function} */ callback) => {
      if (!asked.length) asked[0] = this.#ask(name, callback);
      return this.#wrap(asked[0], callback);
    };
    each(indices, (index) => {
      const word = words[index];
      if (typeof word === 'function') words[index] = wrap(word);
      else if (property && isPlainObject(word) && typeof word[property] === 'function') words[index] = { ...word, [property]: wrap(word[property]) };
    });
    return asked[0] || null;
  }

  /**
   * Records the call: the callback is a one-shot interval.
   * @param {string} name
   * @param {Function} callback
   * @returns {Asked}
   */
  #ask(name, callback) {
    const { recording } = this;
    const number = recording.next('interval');
    recording.noteAsking(`every ${number} 0`);
    recording.log.name('interval', number, { why: name, function: nameOfFunction(callback) });
    const event = recording.isRunning() ? recording.running : null;
    return { name, number, event, ends: name === TRANSITION ? endsOfTransition(event) : [{ moments: [], isByOne: false, why: name }] };
  }

  /**
   * The function that the browser gets in the place of a callback.
   * @param {Asked} asked
   * @param {Function} callback
   * @returns {import('../types').Method}
   */
  #wrap({ name, number, event, ends }, callback) {
    const { recording, page: { natives, promises } } = this;
    const noteEnd = () => each(ends, ({ moments }) => { moments[moments.length] = recording.moment(); });
    return function called() {
      if (recording.isOver || recording.contexts.length) return apply(callback, this, arguments);
      recording.startTask();
      recording.begin(`tick ${number}`, 'tick', undefined, [event]);
      recording.enter('callback');
      try {
        const result = apply(callback, this, arguments);
        // a view transition waits until the promise of its callback is settled
        if (name === TRANSITION && promises.isPlain(result)) apply(natives.then, result, [noteEnd, noteEnd]);
        return result;
      } finally {
        noteEnd();
        recording.leave();
      }
    };
  }
}

/**
 * What each promise of a view transition comes after. A rejection of `ready` can come before the callback.
 * @param {TraceEvent|null} asker the event that starts the transition
 * @returns {Several[]}
 */
function endsOfTransition(asker) {
  const endsBefore = (/** @type {Several[]} */ later, isIfFulfilled = false) => ({ moments: [], isByOne: false, why: TRANSITION, asker, ofAsker: [], later, isIfFulfilled });
  const finished = endsBefore([]);
  const ready = endsBefore([finished], true);
  return [endsBefore([ready, finished]), ready, finished];
}

export { Callbacks };
