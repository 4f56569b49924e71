'use strict';
// Runs of a page in which one race comes in the other order, and the others come in their recorded order.

const { judgeWithin } = require('../races/within-limits.js');
const { isOnePair } = require('./found/orders.js');
const { judgeReversal } = require('./reversal.js');

/** @typedef {import('../races/types').Race} Race */
/** @typedef {import('./types').Attempt} Attempt */
/** @typedef {import('./types').FurtherRun} FurtherRun */
/** @typedef {import('./types').OrderHold} OrderHold */
/** @typedef {import('./types').Reversal} Reversal */

/** How many runs are tried with one cause. */
const MOST_RUNS = 3;

/** @type {(one: Attempt, best: Attempt|null) => boolean} */
const isBetter = (one, best) => !best || (one.isTurned && (!best.isTurned || one.astray.length < best.astray.length));

/** Made by `Replay`. */
class InOrder {
  /**
   * @param {import('./recorded.js').Recorded} recorded
   * @param {import('./runs.js').Runs} runs
   */
  constructor(recorded, runs) {
    this.recorded = recorded;
    this.runs = runs;
  }

  /**
   * Runs the page until the other races come in their recorded order too, or as often as is tried. A race that does not is held in its order in the next run.
   * Called by free-run.js and replay.js.
   * @param {string} name
   * @param {number} number of the race; 0 if none is reversed
   * @param {Reversal|null} reversal
   * @returns {Promise<Attempt>}
   */
  async run(name, number, reversal) {
    /** @type {Map<Race, OrderHold|null>} */
    const holds = new Map();
    let [last, best] = [await this.attempt(name, number, reversal, []), /** @type {Attempt|null} */ (null)];
    for (let k = 1; ; k++) {
      if (isBetter(last, best)) best = last;
      const left = last.astray.filter((race) => !holds.has(race));
      for (const race of left) holds.set(race, await this.recorded.orderHoldFor(race));
      if (k === MOST_RUNS || !left.some((race) => holds.get(race))) break;
      last = await this.attempt(name, number, reversal, /** @type {OrderHold[]} */ ([...holds.values()].filter(Boolean)));
    }
    return this.settle(best || last, last, reversal);
  }

  /**
   * One run: a race in the other order (null: none), and other races held in their recorded order.
   * @param {string} name
   * @param {number} number
   * @param {Reversal|null} reversal
   * @param {OrderHold[]} kept
   * @returns {Promise<Attempt>}
   */
  async attempt(name, number, reversal, kept) {
    const steering = reversal || kept.length ? this.runs.steer(reversal ? [reversal] : [], kept) : null;
    const run = await this.runs.run(name, number ? [number] : [], steering);
    const hold = steering?.reversals[0];
    const judged = reversal && hold ? await judgeReversal(run, hold, reversal) : { isTurned: true };
    const astray = await this.racesAstray(run, reversal ? [reversal.race] : []);
    return { ...judged, run, astray, kept, heldFor: hold?.heldFor || 0 };
  }

  /**
   * Notes the orders of the best attempt. If it was not the last one, another run's files have its name.
   * @param {Attempt} best
   * @param {Attempt} last
   * @param {Reversal|null} reversal
   */
  async settle(best, last, reversal) {
    const { run, kept, astray } = best;
    if (run !== last.run) {
      this.runs.write(run);
      await judgeWithin(run.file);
    }
    this.recorded.orders.note(run, { steered: kept.map(({ race }) => race), reversed: reversal ? [reversal.race] : [], astray });
    return best;
  }

  /**
   * The races that came in another order than recorded, and did not have to. Called by confirm.js.
   * @param {FurtherRun} run
   * @param {Race[]} reversed
   */
  async racesAstray(run, reversed) {
    const { orders } = this.recorded;
    /** @type {Race[]} */
    const astray = [];
    for (const race of orders.watched) {
      if (reversed.some((one) => isOnePair(race, one)) || orders.orderIn(run, race) !== 'turned') continue;
      if (!(await this.hasToReverse(race, reversed))) astray.push(race);
    }
    return astray;
  }

  /**
   * Whether a race has to come in the other order when one of some others does.
   * @param {Race} race
   * @param {Race[]} reversed
   */
  async hasToReverse(race, reversed) {
    for (const one of reversed) {
      if (await this.recorded.hasToReverse(race, one)) return true;
    }
    return false;
  }
}

module.exports = { InOrder };
