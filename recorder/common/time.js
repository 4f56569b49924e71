'use strict';
// Waiting, always with an end. A sleep, and a promise with a timeout.

/**
 * @param {number} time in milliseconds
 * @returns {Promise<void>}
 */
const sleep = (time) => new Promise((resolve) => { setTimeout(resolve, time); });

/**
 * The value of a promise, or `otherwise` if it takes longer than `time` milliseconds. The promise itself goes on. If it is rejected in time, so is the
 * answer; a later rejection is ignored.
 * @template T
 * @template [U=undefined]
 * @param {Promise<T>} promise
 * @param {number} time
 * @param {U} [otherwise]
 * @returns {Promise<T|U>}
 */
function within(promise, time, otherwise) {
  /** @type {NodeJS.Timeout|undefined} */
  let timer;
  /** @type {Promise<U>} */
  const late = new Promise((resolve) => { timer = setTimeout(() => resolve(/** @type {U} */ (otherwise)), time); });
  return Promise.race([promise, late]).finally(() => clearTimeout(timer));
}

module.exports = { sleep, within };
