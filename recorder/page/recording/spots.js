// Whether the code that runs is the code whose request is held back.

import { sliceOf } from '../core/strings.js';
import { Number } from '../core/taken.js';
import { callsOfPage, placeOfCall, placeOnStack, wayOf } from '../log/stack.js';

/**
 * Whether a place of the stack is in the columns of a spot: the copy of the code can have more than one for a place of the source.
 * @param {string} place `address:line:column` in the browser's copy
 * @param {import('../types').Spot|null} spot
 */
function isAt(place, spot) {
  if (!spot || sliceOf(place, 0, spot.line.length) !== spot.line) return false;
  const column = Number(sliceOf(place, spot.line.length, place.length));
  return column >= spot.from && column <= spot.to;
}

/**
 * Whether calls are at spots, each at its own.
 * @param {import('../types').CallSite[]} calls the innermost first
 * @param {(import('../types').Spot|null)[]} spots
 */
function areAt(calls, spots) {
  if (calls.length !== spots.length) return false;
  for (let k = 0; k < calls.length; k++) if (!isAt(placeOfCall(calls[k]), spots[k])) return false;
  return true;
}

/**
 * A test for holds: whether the running code is theirs, by the way of its calls, else by its place. Called by steering.js.
 * @returns {(hold: import('../types').Hold) => boolean}
 */
function testOfCode() {
  const calls = callsOfPage();
  const way = wayOf(calls);
  const place = placeOnStack();
  return (hold) => {
    if (hold.spots) return hold.way ? areAt(calls, hold.spots) : isAt(place, hold.spots[0]);
    return hold.way ? hold.way === way : (hold.place || '') === place;
  };
}

export { testOfCode };
