'use strict';
// The times of an application's loads, with and without the recorder.

/** @param {(number|null)[]} times */
function medianOf(times) {
  const known = times.filter((one) => one !== null).sort((a, b) => Number(a) - Number(b));
  return known.length ? Number(known[Math.floor((known.length - 1) / 2)]) : null;
}

/**
 * The medians in seconds; null if there is none of one of the two, or that without the recorder is 0.
 * @param {Pick<import('./types').DoneLine, 'loads'>} line
 */
function timesOf({ loads }) {
  const [without, own] = [medianOf(loads.without), medianOf(loads.with)];
  return without && own !== null ? { without, own } : null;
}

module.exports = { medianOf, timesOf };
