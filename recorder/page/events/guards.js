// Code that registers a handler only if its event is still to come: it has asked the target in the same event, so the handler cannot be too late.
// `complete` of an image, `readyState` of a video, an audio, a request or a socket: `if (image.complete) shows(); else image.onload = shows;`

import { each } from '../core/lists.js';
import { replaceGetter } from '../core/replacing.js';
import { Number, WeakMap, apply, hasOwn } from '../core/taken.js';

/**
 * Properties that say how far a target is: from which value on, as a number, events of a type have come.
 * @type {[owner: string, name: string, comes: {[type: string]: number}][]}
 */
const STATES = [
  ['HTMLImageElement', 'complete', { load: 1, error: 1 }],
  ['HTMLMediaElement', 'readyState', { loadedmetadata: 1, loadeddata: 2, canplay: 3, canplaythrough: 4 }],
  ['XMLHttpRequest', 'readyState', { load: 4, loadend: 4, error: 4 }],
  ['WebSocket', 'readyState', { open: 1 }],
];

/** One for each document: `page.guards`. */
class Guards {
  /** @param {import('../types').Page} page */
  constructor(page) {
    this.page = page;
    this.recording = page.recording;
    /**
     * By target: which event has asked last how far it is, the answer, and what it means.
     * @type {WeakMap<EventTarget, {event: import('../types').TraceEvent, state: number, comes: {[type: string]: number}}>}
     */
    this.asked = new WeakMap();
  }

  /** Hooks the states of the table above. One call per document, before its code runs. */
  start() {
    const guards = this;
    each(STATES, ({ 0: owner, 1: name, 2: comes }) => replaceGetter(this.page.window[owner].prototype, name, (native) => function get() {
      const state = apply(native, this, arguments);
      guards.#note(this, Number(state), comes);
      return state;
    }));
  }

  /**
   * @param {EventTarget} target
   * @param {number} state
   * @param {{[type: string]: number}} comes
   */
  #note(target, state, comes) {
    if (this.recording.isRunning()) this.asked.set(target, { event: this.recording.running, state, comes });
  }

  /**
   * Whether an event is known to be still to come, since the running event has asked for it.
   * @param {EventTarget} target
   * @param {string} type
   */
  isToCome(target, type) {
    const known = this.asked.get(target);
    return !!known && known.event === this.recording.running && hasOwn(known.comes, type) && known.state < known.comes[type];
  }
}

export { Guards };
