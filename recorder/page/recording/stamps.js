// Shows in the browser's own timeline what runs: for recorder/test/timeline.js, which compares them. No recording of a user has these stamps.

import { apply } from '../core/taken.js';

/** @typedef {import('../types').PageWindow} PageWindow */

/** @param {PageWindow} window */
const stampOf = (window) => window.console.timeStamp.bind(window.console);

/**
 * Shows each begin and end of an action in the browser's own timeline, for test/timeline.js.
 * Called by page/main.js.
 * @param {PageWindow} window the page's own, not that of a frame
 * @param {import('../types').Recording} recording
 */
function stampActions(window, recording) {
  const stamp = stampOf(window);
  const { begin, enter, leaveCall, finish } = recording;
  recording.begin = (line, kind, place, after) => {
    stamp(`er begin ${line}`);
    return apply(begin, recording, [line, kind, place, after]);
  };
  recording.enter = (kind) => {
    stamp(`er enter ${kind}`);
    return apply(enter, recording, [kind]);
  };
  recording.leaveCall = () => {
    apply(leaveCall, recording, []);
    stamp(`er leave ${recording.contexts.length}`);
  };
  recording.finish = () => {
    apply(finish, recording, []);
    stamp('er over');
  };
}

/**
 * What the recorder itself has a window call back. Called by page/main.js.
 * @param {PageWindow} window the page's own, or that of a frame
 * @param {import('../types').Natives} natives of this window
 */
function stampOwn(window, natives) {
  const stamp = stampOf(window);
  const { setTimeout, requestAnimationFrame } = natives;
  const own = (/** @type {Function} */ run) => () => {
    stamp('er own');
    run();
  };
  natives.setTimeout = /** @type {typeof setTimeout} */ ((run, delay) => setTimeout(own(/** @type {Function} */ (run)), delay));
  natives.requestAnimationFrame = (run) => requestAnimationFrame(own(run));
}

export { stampActions, stampOwn };
