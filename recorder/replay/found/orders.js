'use strict';
// In which order the races of the recorded run came in other runs. While one is reversed, all others are watched.

/** How many pairs of actions that race are watched in each run. */
const MOST_WATCHED = 400;

/** @typedef {import('../../races/types').Race} Race */
/** @typedef {Pick<import('../types').Run, 'name'|'keys'>} Run */
/** @typedef {'turned'|'kept'|'gone'} Order gone if one of the two accesses did not come */

/** @param {{actions: number[]}} race */
const pairOf = (race) => race.actions.join(' ');
/**
 * Sorts the names of runs, which end in any order: those of no race come first, as they ended.
 * @param {string} one
 * @param {string} other
 */
const byRace = (one, other) => (parseInt(one, 10) || 0) - (parseInt(other, 10) || 0);
/**
 * Called by replay/in-order.js and replay/independent.js.
 * @param {Race} race
 * @param {Race|null|undefined} other
 */
const isOnePair = (race, other) => !!other && pairOf(race) === pairOf(other);

/** Made for each recorded run, by replay/recorded.js; suite-loads.js uses it for the runs of a suite. */
class Orders {
  /**
   * @param {Pick<import('../../races/types').Report, 'races'>} report of the recorded run
   * @param {import('../../races/keys.js').Keys} keys of that run
   */
  constructor(report, keys) {
    this.report = report;
    this.keys = keys;
    /** @type {Map<Race, ReturnType<Orders['identify']>>} */
    this.sides = new Map();
    /**
     * The first race of each pair of actions, by the pair.
     * @type {Map<string, Race>}
     */
    this.pairs = new Map();
    for (const race of report.races) {
      if (!this.pairs.has(pairOf(race)) && this.pairs.size < MOST_WATCHED) this.pairs.set(pairOf(race), race);
    }
    this.watched = [...this.pairs.values()];
    /**
     * By a pair: in which runs it came in which order without being steered.
     * @type {Map<string, import('../types').Chance>}
     */
    this.byItself = new Map();
    /**
     * The orders that are known, by the run.
     * @type {WeakMap<Run, Map<Race, Order>>}
     */
    this.known = new WeakMap();
  }

  /**
   * What the two accesses of a race are in any run. Called by replay/recorded.js and replay/replay.js.
   * @param {Race} race
   */
  sidesOf(race) {
    const sides = this.sides.get(race) || this.identify(race, this.keys);
    this.sides.set(race, sides);
    return sides;
  }

  /**
   * What the two accesses are in any run, the first of the trace first: by the keys of the recorded run, or by looser ones (replay.js). `Keys.find` looks for
   * them in another run.
   * @param {Race} race
   * @param {import('../../races/keys.js').Keys} keys
   * @returns {[first: import('../../races/types').AccessIdentity, second: import('../../races/types').AccessIdentity]}
   */
  identify({ location, modes, actions, lines }, keys) {
    /** @param {0|1} k */
    const side = (k) => keys.identify({ location, mode: modes[k], action: actions[k], line: lines[k] });
    return [side(0), side(1)];
  }

  /**
   * In which order a race came in a run.
   * @param {Run} run
   * @param {Race} race
   * @returns {Order}
   */
  orderIn(run, race) {
    const orders = this.known.get(run) || new Map();
    this.known.set(run, orders);
    const order = orders.get(race) || this.findOrder(run, race);
    orders.set(race, order);
    return order;
  }

  /**
   * @param {Run} run
   * @param {Race} race
   * @returns {Order}
   */
  findOrder(run, race) {
    const [first, second] = this.sidesOf(race).map((side) => run.keys.find(side));
    if (!first || !second) return 'gone';
    return second.line < first.line ? 'turned' : 'kept';
  }

  /**
   * Notes the orders of a run, except those of steered races. If races were reversed, those that also came in the other order and did not stray had to. Called
   * by replay/free-run.js and replay/in-order.js.
   * @param {Run} run
   * @param {{steered?: Race[], reversed?: Race[], astray?: Race[]}} facts
   */
  note(run, { steered = [], reversed = [], astray = [] } = {}) {
    for (const race of this.watched) {
      const order = this.orderIn(run, race);
      if (order === 'gone' || [...steered, ...reversed].some((one) => isOnePair(race, one))) continue;
      const isImplied = reversed.length > 0 && order === 'turned' && !astray.includes(race);
      const chance = this.byItself.get(pairOf(race)) || { kept: [], turned: [], implied: [] };
      this.byItself.set(pairOf(race), chance);
      chance[isImplied ? 'implied' : order].push(run.name);
    }
  }

  /**
   * In which runs a race came in which order by itself, and in which with another one; null if it came in none. Called by replay-results.js.
   * @param {Race} race
   * @returns {import('../types').Chance|null}
   */
  chanceOf(race) {
    const runs = this.byItself.get(pairOf(race));
    if (!runs) return null;
    const { kept, turned, implied } = runs;
    return { kept: [...kept].sort(byRace), turned: [...turned].sort(byRace), implied: [...implied].sort(byRace) };
  }

  /**
   * The numbers of all other races that came in the other order in a run in which a race was reversed, as far as they are watched. Called by along.js.
   * @param {Run} run
   * @param {Race} race
   */
  turnedWith(run, race) {
    return this.report.races.flatMap((other, k) => {
      const pair = this.pairs.get(pairOf(other));
      const isTurned = !!pair && (isOnePair(other, race) || this.orderIn(run, pair) === 'turned');
      return isTurned && other !== race ? [k + 1] : [];
    });
  }

  /**
   * How the other races of a race's group came in a run in which it was reversed. Called by replay/replay.js.
   * @param {Run} run
   * @param {Race} race
   */
  ofGroup(run, race) {
    /** @type {import('../types').GroupOrders} */
    const orders = { turned: [], kept: [], gone: [] };
    this.report.races.forEach((other, k) => {
      const pair = this.pairs.get(pairOf(other));
      if (other === race || other.group !== race.group || !pair) return;
      orders[isOnePair(other, race) ? 'turned' : this.orderIn(run, pair)].push(k + 1);
    });
    return orders;
  }
}

module.exports = { Orders, isOnePair };
