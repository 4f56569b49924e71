// Callbacks that have run when code clears them: in another order this code comes first, and they do not run. A note says which code this was, for the list.
// `clearTimeout`, `clearInterval`, `cancelAnimationFrame`, `cancelIdleCallback` with an old number, as in code that waits for the last input (debounce).

import { each } from '../core/lists.js';
import { replaceMethod } from '../core/replacing.js';
import { Map, Object, apply } from '../core/taken.js';

/**
 * The functions that clear a callback, and the queue whose numbers they take.
 * @type {{[name: string]: string}}
 */
const QUEUES = { clearTimeout: 'timers', clearInterval: 'timers', cancelAnimationFrame: 'frames', cancelIdleCallback: 'idle' };
/** So many callbacks are remembered. */
const MOST_KNOWN = 1000;

/**
 * A callback: what the trace calls it, the task of its last run, and the action that has cleared it last.
 * @typedef {{queue: 'timeout'|'interval', number: number, ran?: number, cleared?: number}} Requested
 */

/** One for each document: `page.endedCallbacks`. */
class EndedCallbacks {
  /** @param {import('../types').Page} page */
  constructor(page) {
    this.page = page;
    this.recording = page.recording;
    /**
     * By the queue and the number that the browser has given, the oldest first.
     * @type {Map<string, Requested>}
     */
    this.known = new Map();
  }

  start() {
    const ended = this;
    const { window } = this.page;
    each(Object.keys(QUEUES), (name) => {
      if (window[name]) replaceMethod(window, name, (native) => function clear(given) {
        ended.#note(`${QUEUES[name]} ${typeof given === 'number' || typeof given === 'string' ? given : ''}`);
        return apply(native, window, arguments);
      });
    });
  }

  /**
   * Code has requested a callback. Called by timers.js.
   * @param {string} queue
   * @param {number} given by the browser
   * @param {Requested} requested
   */
  request(queue, given, requested) {
    const { known } = this;
    known.set(`${queue} ${given}`, requested);
    if (known.size > MOST_KNOWN) known.clear();
    return given;
  }

  /**
   * Code clears a callback: if that has run in another task, an empty handler stands for it. None runs it, so it puts nothing in order.
   * @param {string} key
   */
  #note(key) {
    const { recording } = this;
    const one = this.known.get(key);
    if (!one?.ran || recording.isOver || !recording.isRunning() || one.ran === recording.task || one.cleared === recording.actions) return;
    one.cleared = recording.actions;
    const handler = recording.next('handler');
    recording.note(`on ${handler}`);
    recording.log.name('handler', handler, { type: 'the end of a callback', isEmpty: true, queue: one.queue, ends: one.number });
  }
}

export { EndedCallbacks };
