// In a replay: a callback that is held back is dropped if the page clears it (steering.js). Clearing is no access, so nothing is written.

import { each } from '../core/lists.js';
import { replaceMethod } from '../core/replacing.js';
import { Number, Object, apply } from '../core/taken.js';

/**
 * The functions that clear a callback, and the queue whose numbers they take: timeouts and intervals of a window have one range of numbers.
 * @type {{[name: string]: string}}
 */
const QUEUES = { clearTimeout: 'timers', clearInterval: 'timers', cancelAnimationFrame: 'frames', cancelIdleCallback: 'idle' };

/**
 * Whether a hold is of the callback that the page clears. `Steering.note` has set its `request`.
 * @param {import('../types').Held} hold
 * @param {import('../types').PageWindow} window
 * @param {string} queue of the function that clears, by `QUEUES`
 * @param {unknown} given its argument: the number, or a text of it
 */
function isOf({ request }, window, queue, given) {
  if (!request || request.window !== window || request.queue !== queue) return false;
  return request.number === (typeof given === 'string' ? Number(given) : given);
}

/**
 * A callback that is released comes some time later: the page can clear it until then.
 * @param {import('../types').Held} hold
 * @param {import('../types').Callback} run
 * @returns {import('../types').Callback}
 */
function unlessCleared(hold, run) {
  return (...args) => {
    if (!hold.isCleared) apply(run, undefined, args);
  };
}

/**
 * Drops what waits of a hold when the page clears its callback.
 * @param {import('../types').PageWindow} window
 * @param {import('../types').Held[]} holds those of the page, to which some can be added later
 */
function watchClearing(window, holds) {
  each(Object.keys(QUEUES), (name) => replaceMethod(window, name, (native) => (...args) => {
    each(holds, (hold) => {
      if (!isOf(hold, window, QUEUES[name], args[0])) return;
      hold.waiting = [];
      hold.isCleared = true;
    });
    return apply(native, window, args);
  }));
}

export { unlessCleared, watchClearing };
