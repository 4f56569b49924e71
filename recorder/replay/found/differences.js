'use strict';
// The differences between runs, with those of their pictures, and which of them come from the other order. Those that are there without it too (noise, as of
// random numbers or the clock) are left out, whatever the numbers in them: `unsteady`, found by one run with nothing reversed (../free-run.js).

const { compare } = require('./compare.js');
const { Pictures } = require('./pictures.js');

/** @typedef {import('../types').Difference} Difference */
/** @typedef {import('../types').Found} Found */
/** @typedef {import('./compare.js').Comparing} Comparing */

/** How many points of a picture must differ: fewer are a matter of fonts and edges. */
const FEWEST_POINTS = 12;

/**
 * A line that contains the time is another one in each run.
 * @param {string} text
 */
const withoutNumbers = (text) => text.replace(/[0-9a-f]{8,}|\d+/gi, '#');

/**
 * Whether a difference is like another one, whatever the numbers in them.
 * @param {Difference} one
 * @param {Difference} other
 */
const isLike = (one, other) => one.kind === other.kind && withoutNumbers(one.subject) === withoutNumbers(other.subject);

/**
 * The differences that are like some of another list, and the others. Called by replay/confirm.js and replay/independent.js.
 * @param {Difference[]} list
 * @param {Difference[]} some
 */
function splitBy(list, some) {
  const isIn = (/** @type {Difference} */ one) => some.some((other) => isLike(one, other));
  return { like: list.filter(isIn), unlike: list.filter((one) => !isIn(one)) };
}

/** Made by `Replay`. */
class Differences {
  /** @param {import('../../browser/protocol.js').Protocol} browser */
  constructor(browser) {
    this.pictures = new Pictures(browser);
  }

  /**
   * The differences between two runs, and between their pictures. Called by replay/confirm.js and replay/free-run.js.
   * @param {Comparing} one
   * @param {Comparing} other
   */
  async between(one, other) {
    const all = compare(one, other);
    const found = await this.pictures.compare(one.end.picture, other.end.picture);
    if (!found || found.differing < FEWEST_POINTS) return all;
    const { differing, points, boxes } = found;
    return [...all, { kind: 'picture', subject: 'the picture', isSeen: true, recorded: 'as recorded', other: `${differing} of ${points} points differ`, boxes }];
  }

  /** Closes the tab that compares pictures. Called by replay/replay.js. */
  close() {
    return this.pictures.close();
  }
}

/**
 * The differences of a run, sorted: those that are there without the other order are apart, and so are those that nobody can notice. Called by
 * replay/confirm.js and suite-replays.js.
 * @param {Difference[]} all
 * @param {Difference[]} unsteady
 * @returns {Pick<Found, 'differences'|'beside'|'unsteady'|'byDelay'>}
 */
function sorted(all, unsteady) {
  const { like, unlike } = splitBy(all, unsteady);
  return { differences: unlike.filter(({ isSeen }) => isSeen), beside: unlike.filter(({ isSeen }) => !isSeen), unsteady: like, byDelay: [] };
}

module.exports = { Differences, splitBy, sorted };
