'use strict';
// The run with nothing reversed, once for all races of a page: what differs in it does so in the recorded order.

/** @typedef {import('./types').FurtherRun} FurtherRun */

/** Made by `Replay`. */
class FreeRun {
  /**
   * @param {import('./recorded.js').Recorded} recorded
   * @param {import('./in-order.js').InOrder} inOrder
   * @param {import('./found/differences.js').Differences} differences
   */
  constructor(recorded, inOrder, differences) {
    this.recorded = recorded;
    this.inOrder = inOrder;
    this.differences = differences;
    /** @type {FurtherRun|null} */
    this.free = null;
    /**
     * What differs from the recorded run.
     * @type {import('./types').Difference[]}
     */
    this.unsteady = [];
    /** @type {Promise<void>|null} */
    this.isOver = null;
  }

  /** Runs the page, the first time. */
  run() {
    this.isOver = this.isOver || this.runOnce();
    return this.isOver;
  }

  /** Runs the page with nothing reversed, and finds what differs by itself. */
  async runOnce() {
    this.recorded.orders.note(this.recorded.run);
    const { run, astray } = await this.inOrder.run('free', 0, null);
    this.free = run;
    if (!astray.length) this.unsteady = await this.differences.between(this.recorded.run, run); // else it may come from these races
  }

  /**
   * The run, if a race came in its recorded order in it; else null, as it says nothing then.
   * @param {import('../races/types').Race} race
   */
  inOrderOf(race) {
    return this.free && this.recorded.orders.orderIn(this.free, race) === 'kept' ? this.free : null;
  }
}

module.exports = { FreeRun };
