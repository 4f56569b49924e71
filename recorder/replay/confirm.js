'use strict';
// What differs when a race comes in the other order, confirmed by two further runs: does a second run in this order show it too, and does it come from the
// delay? Several races share these runs if their differences cannot be confused, or if they turn together; else each has its own. So flaky differences are not
// shown as those of the race.

const { allOf } = require('../common/at-once.js');
const { splitBy, sorted } = require('./found/differences.js');
const { canShareWith } = require('./independent.js');
const { judgeReversal } = require('./reversal.js');
const { isStop } = require('./runs.js');

/** @typedef {import('./types').Difference} Difference */
/** @typedef {import('./types').Found} Found */
/** @typedef {import('./types').FurtherRun} FurtherRun */
/** @typedef {import('./types').OrderHold} OrderHold */
/** @typedef {import('./types').Reversed} Reversed */
/** @typedef {{again: Difference[]|null, late: Difference[]|null}} Confirmed what differs from the recorded run in each of the two runs; null if there is no such run */
/**
 * @typedef {object} Claim a race whose differences are to be confirmed
 * @property {Reversed} one
 * @property {number} number
 * @property {Difference[]} differences
 * @property {OrderHold|null} orderHold what keeps it in its recorded order in the run of the delay; null if there is no such run
 */

/** How many races share a run. */
const MOST_SHARED = 6;
/** Milliseconds that a race waits for others while there is room for its runs, or as long as a run takes: a slow race holds none of them up. */
const LONGEST_WAIT = 4000;

/** One for all races of a replay: `Replay` expects each race, and asks for its differences (`find`). */
class Confirm {
  /**
   * @param {import('./recorded.js').Recorded} recorded
   * @param {import('./runs.js').Runs} runs
   * @param {import('./found/differences.js').Differences} differences
   * @param {import('./free-run.js').FreeRun} free
   * @param {import('./in-order.js').InOrder} inOrder
   */
  constructor(recorded, runs, differences, free, inOrder) {
    this.recorded = recorded;
    this.runs = runs;
    this.differences = differences;
    this.free = free;
    this.inOrder = inOrder;
    /** How many races have not come to their claim yet. */
    this.expected = 0;
    /**
     * The claims that wait for others.
     * @type {{claim: Claim, settle: (confirmed: Promise<Confirmed>) => void}[]}
     */
    this.waiting = [];
    /** @type {NodeJS.Timeout|undefined} */
    this.timer = undefined;
  }

  // ---- races that wait for each other

  /** Expects a race, so that others may wait for its claim. Called by replay.js. */
  expect() {
    this.expected++;
  }

  /** Called when an expected race has come to its claim, or needs no runs. Called by replay.js. */
  arrive() {
    this.expected--;
    if (this.expected <= 0 || this.waiting.length >= MOST_SHARED) this.startWaiting();
  }

  /** Limits how long claims wait. While there is no room for a run, waiting costs nothing. */
  limitWaiting() {
    if (this.timer) return;
    this.timer = setTimeout(() => {
      this.timer = undefined;
      if (this.runs.slots.isFull()) this.limitWaiting();
      else this.startWaiting();
    }, Math.max(LONGEST_WAIT, this.runs.longestRun));
  }

  /** Starts the runs of all claims that wait, in the order of their races. */
  startWaiting() {
    clearTimeout(this.timer);
    this.timer = undefined;
    const group = this.waiting.splice(0).sort((a, b) => a.claim.number - b.claim.number);
    if (!group.length) return;
    const confirmed = this.confirmGroup(group.map(({ claim }) => claim));
    group.forEach(({ settle }, k) => settle(confirmed.then((all) => all[k])));
  }

  /**
   * What differs in a run in which a race was reversed. `arrived` is called once the race needs no more runs of its own. Called by replay.js.
   * @param {Reversed} one
   * @param {number} number of the race
   * @param {() => void} arrived
   * @returns {Promise<Found>}
   */
  async find(one, number, arrived) {
    await this.free.run();
    const found = await this.difference(one);
    if (!found.differences.length) return found;
    const claim = { one, number, differences: found.differences, orderHold: await this.orderHoldFor(one) };
    /** @type {Promise<Confirmed>} */
    const confirmed = new Promise((resolve) => { this.waiting.push({ claim, settle: resolve }); });
    this.limitWaiting();
    arrived();
    const { again, late } = await confirmed;
    return seeDelay(seeTwice(found, again), late);
  }

  /**
   * What differs from the recorded run, and from the run with nothing reversed too if that has the recorded order.
   * @param {Reversed} reversed
   * @returns {Promise<Found>}
   */
  async difference({ run, isListed, astray, reversal: { race } }) {
    const { recorded, differences } = this;
    const all = await differences.between(recorded.run, run);
    const free = this.free.inOrderOf(race);
    const again = free ? await differences.between(free, run) : all;
    const steady = all.filter(({ kind, subject }) => again.some((one) => one.kind === kind && one.subject === subject));
    return {
      isListed,
      isSteady: free !== null,
      astray: astray.map((one) => recorded.report.races.indexOf(one) + 1),
      picture: run.end.picture?.small,
      ...sorted(steady, free ? this.free.unsteady : []),
    };
  }

  /**
   * What keeps a race in its recorded order while its cause is late. Null if there is no such run: another thing than the cause has to be late, and an act
   * that was moved is not late.
   * @param {Reversed} reversed
   */
  async orderHoldFor({ reversal: { cause, race }, heldFor }) {
    const isMoved = cause.means === 'act' && (cause.after || 0) > (cause.act || 0);
    const orderHold = heldFor > 0 && !isMoved ? await this.recorded.orderHoldFor(race) : null;
    return orderHold && orderHold.cause.words !== cause.words ? orderHold : null;
  }

  // ---- their runs

  /**
   * The runs of several claims: shared ones for those that can share them, and for each claim that these do not answer, its own.
   * @param {Claim[]} claims
   * @returns {Promise<Confirmed[]>}
   */
  async confirmGroup(claims) {
    const shared = await this.sharing(claims);
    if (shared.length < 2) return allOf(claims.map((claim) => this.confirmAlone(claim)), isStop);
    const late = shared.filter(({ orderHold }) => orderHold);
    const [again, delayed] = await allOf([this.againOf(shared), late.length > 1 ? this.lateOf(late) : new Map()], isStop);
    return allOf(claims.map((claim) => this.confirmAlone(claim, again.get(claim), delayed.get(claim))), isStop);
  }

  /**
   * The claims that can share a run, the first ones first.
   * @param {Claim[]} claims
   */
  async sharing(claims) {
    /** @type {Claim[]} */
    const shared = [];
    for (const claim of claims) {
      if (await canShareWith(claim, shared, this.recorded)) shared.push(claim);
    }
    return shared;
  }

  /**
   * @param {Claim} claim
   * @param {Difference[]} [again] of a shared run
   * @param {Difference[]} [late]
   * @returns {Promise<Confirmed>}
   */
  async confirmAlone(claim, again, late) {
    const own = [again || this.againOf([claim]).then((found) => found.get(claim)), late || (claim.orderHold && this.lateOf([claim]).then((found) => found.get(claim)))];
    const [first, second] = await allOf(own, isStop);
    return { again: first || null, late: second || null };
  }

  /**
   * What differs in a second run in which races are reversed in the same way, by the claim. Of a shared run, only claims that it confirms.
   * @param {Claim[]} claims
   * @returns {Promise<Map<Claim, Difference[]>>}
   */
  async againOf(claims) {
    const steering = this.runs.steer(claims.map(({ one }) => one.reversal), keptOf(claims));
    const run = await this.run('again', claims, steering);
    if (claims.length > 1 && (await this.strays(run, claims))) return new Map();
    const differences = await this.differences.between(this.recorded.run, run);
    const judged = await allOf(claims.map(({ one }, k) => judgeReversal(run, steering.reversals[k], one.reversal)), isStop);
    const seen = claims.filter((claim, k) => judged[k].isTurned && (claims.length === 1 || !splitBy(claim.differences, differences).unlike.length));
    return new Map(seen.map((claim) => [claim, differences]));
  }

  /**
   * What differs in a run in which the causes are late by the same time, and the accesses come in their recorded order, by the claim. Of a shared run, only
   * claims none of whose differences it shows.
   * @param {Claim[]} claims
   * @returns {Promise<Map<Claim, Difference[]>>}
   */
  async lateOf(claims) {
    const holds = claims.flatMap(({ orderHold }) => orderHold || []);
    const steering = this.runs.steer(claims.map(({ one: { reversal, heldFor } }) => ({ ...reversal, length: heldFor })), [...keptOf(claims), ...holds]);
    const run = await this.run('late', claims, steering);
    if (claims.length > 1 && (await this.strays(run, claims))) return new Map();
    const differences = await this.differences.between(this.recorded.run, run);
    const isInOrder = (/** @type {Claim} */ { one }) => this.recorded.orders.orderIn(run, one.reversal.race) === 'kept';
    const isHeld = (/** @type {number} */ k) => claims.length === 1 || steering.reversals[k].heldFor >= claims[k].one.heldFor;
    const seen = claims.filter((claim, k) => isInOrder(claim) && isHeld(k) && (claims.length === 1 || !splitBy(claim.differences, differences).like.length));
    return new Map(seen.map((claim) => [claim, differences]));
  }

  /**
   * @param {string} kind
   * @param {Claim[]} claims
   * @param {import('./steering.js').RunSteering} steering
   */
  run(kind, claims, steering) {
    const numbers = claims.map(({ number }) => number);
    return this.runs.run(`${numbers.join('+')}-${kind}`, numbers, steering);
  }

  /**
   * Whether races strayed in a shared run that had not strayed in the runs of its claims.
   * @param {FurtherRun} run
   * @param {Claim[]} claims
   */
  async strays(run, claims) {
    const known = claims.flatMap(({ one }) => one.astray);
    const astray = await this.inOrder.racesAstray(run, claims.map(({ one }) => one.reversal.race));
    return astray.some((race) => !known.includes(race));
  }
}

/**
 * What held other races in their order in the runs of some claims, each race once.
 * @param {Claim[]} claims
 */
function keptOf(claims) {
  const kept = claims.flatMap(({ one }) => one.kept);
  return kept.filter(({ race }, k) => kept.findIndex((other) => other.race === race) === k);
}

/**
 * Moves what the second run does not show to what is not steady.
 * @param {Found} found
 * @param {Difference[]|null} again
 * @returns {Found}
 */
function seeTwice(found, again) {
  if (!again) return { ...found, isSeenTwice: false };
  const { like, unlike } = splitBy(found.differences, again);
  return { ...found, isSeenTwice: true, differences: like, unsteady: [...found.unsteady, ...unlike] };
}

/**
 * Moves what the delay alone shows too, as of a page that says that the network is slow.
 * @param {Found} found
 * @param {Difference[]|null} late
 * @returns {Found}
 */
function seeDelay(found, late) {
  if (!late || !found.differences.length) return found;
  const { like, unlike } = splitBy(found.differences, late);
  return { ...found, isSeenWithDelay: true, differences: unlike, byDelay: like };
}

module.exports = { Confirm };
