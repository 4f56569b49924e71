'use strict';
// Work done several pieces at once: with a rank, over a list, and its results. A pool with a limit: at most so many pieces run concurrently, the others wait in
// a queue.

/** Made by replay/runs.js, as its `slots`. */
class AtOnce {
  /** @param {number} most how many pieces of work go on at once */
  constructor(most) {
    this.most = most;
    this.count = 0;
    /** @type {{rank: number, start: (value?: undefined) => void}[]} */
    this.waiting = [];
  }

  /**
   * Does a piece of work as soon as there is room. Of the pieces that wait, the one with the lowest rank starts first.
   * @template T
   * @param {number} rank
   * @param {() => Promise<T>} work
   * @returns {Promise<T>}
   */
  async do(rank, work) {
    if (this.count < this.most) this.count++;
    else await new Promise((resolve) => { this.waiting.push({ rank, start: resolve }); });
    try {
      return await work();
    } finally {
      this.passOn();
    }
  }

  isFull() {
    return this.count >= this.most;
  }

  /** Gives the room of a finished piece of work to the next one. */
  passOn() {
    if (!this.waiting.length) {
      this.count--;
      return;
    }
    const next = this.waiting.reduce((best, one) => (one.rank < best.rank ? one : best));
    this.waiting.splice(this.waiting.indexOf(next), 1);
    next.start();
  }
}

/**
 * Does something for each item, `most` of them at once. Returns the results in the order of the items.
 * @template T, R
 * @param {T[]} items
 * @param {number} most
 * @param {(item: T, index: number) => Promise<R>} work
 * @returns {Promise<R[]>}
 */
function eachAtOnce(items, most, work) {
  const slots = new AtOnce(most);
  return Promise.all(items.map((item, k) => slots.do(k, () => work(item, k))));
}

/**
 * Waits until all promises are over, and returns their values. Rejects with the first error that `isLess` is false for, else with the first one. Called by
 * replay-command.js, replay/confirm.js and replay/replay.js.
 * @template T
 * @param {readonly (T|Promise<T>)[]} promises
 * @param {(error: unknown) => boolean} isLess
 * @returns {Promise<T[]>}
 */
async function allOf(promises, isLess = () => false) {
  const values = [];
  const errors = [];
  for (const one of await Promise.allSettled(promises)) {
    if (one.status === 'fulfilled') values.push(one.value);
    else errors.push(one.reason);
  }
  if (errors.length) throw errors.find((error) => !isLess(error)) || errors[0];
  return values;
}

module.exports = { AtOnce, eachAtOnce, allOf };
