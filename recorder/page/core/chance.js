// The same chance in each run, for comparing runs: random numbers by a seed, and a clock that begins at the same time. `Math.random`, `Date.now` and `new
// Date()` become deterministic.

import { putConstructor, replaceMethod } from './replacing.js';
import { Math, Reflect, apply } from './taken.js';

/**
 * When the page began; its frames of the same origin have its clock.
 * @param {import('../types').PageWindow} window
 * @returns {number} milliseconds
 */
function beginOf(window) {
  try {
    return /** @type {Window} */ (window.top).performance.timeOrigin;
  } catch { // a frame of another origin
    return window.performance.timeOrigin;
  }
}

/**
 * Called by page/main.js.
 * @param {import('../types').PageWindow} window
 * @param {{seed: number, date: number}} chance
 */
function fixChance(window, { seed, date }) {
  let state = seed >>> 0;
  window.Math.random = function random() {
    state = (Math.imul(state, 1664525) + 1013904223) >>> 0;
    return state / 4294967296;
  };
  const Native = window.Date;
  const { now: clock, prototype: { toString: dateText } } = Native;
  const offset = Math.round(date - beginOf(window)); // the browser's clock has whole milliseconds, except the page's start
  const now = () => clock() + offset;
  /** @param {unknown[]} args */
  function FixedDate(...args) {
    if (!new.target) return apply(dateText, new Native(now()), []);
    return Reflect.construct(Native, args.length ? args : [now()], new.target === FixedDate ? Native : new.target);
  }
  replaceMethod(Native, 'now', () => now);
  putConstructor(window, 'Date', FixedDate);
}

export { fixChance };
