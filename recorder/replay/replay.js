'use strict';
// Runs a recorded page again so that the two accesses of a race come in the other order, and finds what differs then. A run whose tab crashes reverses nothing.

const { randomInt } = require('node:crypto');
const path = require('node:path');
const { allOf } = require('../common/at-once.js');
const { RecordingFault } = require('../recording/recorder.js');
const { Confirm } = require('./confirm.js');
const { Along } = require('./found/along.js');
const { Differences } = require('./found/differences.js');
const { checkOrder } = require('./found/lawful.js');
const { countTurns } = require('./found/turns.js');
const { FreeRun } = require('./free-run.js');
const { InOrder } = require('./in-order.js');
const { Recorded } = require('./recorded.js');
const { countedIn } = require('./reversal.js');
const { Runs, withEnd, isStop, runsAtOnce } = require('./runs.js');

/** @typedef {import('../races/types').Race} Race */
/** @typedef {import('./types').Attempt} Attempt */
/** @typedef {import('./types').Cause} Cause */
/** @typedef {import('./types').Result} Result */
/** @typedef {import('./types').Reversal} Reversal */
/** @typedef {import('./types').Reversed} Reversed */

/** How many causes of a race are tried, and how many tries it has in all; each try has up to MOST_RUNS runs (in-order.js). */
const MOST_CAUSES = 2;
const MOST_TRIES = 3;
const LARGEST_SEED = 2 ** 32 - 1;

/**
 * What `page/core/chance.js` gets so that each run of a recording has the same random numbers and clock. Another recording has other ones, as without the
 * recorder: a page that makes the names of its data by chance may store them. Called by page-races.js and replay-race.js.
 * @param {{isLive: boolean}} options
 */
const chance = (options) => (options.isLive ? null : { seed: randomInt(LARGEST_SEED), date: Date.now() });

/** Made by replay-command.js, for er_page, er_replay and programs. */
class Replay {
  /**
   * @param {import('../recording/recorder.js').Recorder} recorder of the recorded run, whose browser still runs
   * @param {import('./types').ReplayOptions} options
   * @param {string} traceFile
   * @param {import('../races/types').Report} report
   */
  constructor(recorder, options, traceFile, report) {
    this.recorder = recorder;
    this.traceFile = traceFile;
    this.recorded = new Recorded(recorder, options, traceFile, report);
    this.runs = new Runs(this.recorded, options);
    this.differences = new Differences(/** @type {import('../browser/protocol.js').Protocol} */ (recorder.browser));
    this.along = new Along(this.recorded.orders, this.recorded.run.keys);
    this.inOrder = new InOrder(this.recorded, this.runs);
    this.free = new FreeRun(this.recorded, this.inOrder, this.differences);
    this.confirm = new Confirm(this.recorded, this.runs, this.differences, this.free, this.inOrder);
  }

  /** What differs with nothing reversed. */
  get unsteady() {
    return this.free.unsteady;
  }

  /** Stops the runs that are under way. Called by replay-command.js. */
  interrupt() {
    this.runs.interrupt();
  }

  /** Runs the page with nothing reversed, which all races need. Called by replay-command.js. */
  runFreely() {
    return this.free.run();
  }

  /** Ends what compares the runs. The browser stays. Called by replay-command.js. */
  close() {
    return this.differences.close();
  }

  /**
   * Runs the page so that a race comes in the other order. Races that are reversed at once share runs. Called by replay-command.js.
   * @param {Race} race
   * @param {number} number of the race in the report
   * @returns {Promise<Result>}
   */
  async reverse(race, number) {
    this.confirm.expect();
    let hasArrived = false;
    const arrive = () => {
      if (!hasArrived) this.confirm.arrive();
      hasArrived = true;
    };
    try {
      return await this.tryCauses(race, number, arrive);
    } finally {
      arrive();
    }
  }

  /**
   * Tries one cause after the other until the race comes in the other order, each in a run of its own.
   * @param {Race} race
   * @param {number} number
   * @param {() => void} arrive called once the race needs no more runs of its own
   * @returns {Promise<Result>}
   */
  async tryCauses(race, number, arrive) {
    const { causes, why } = await this.recorded.toReverse(race);
    if (!causes.length) return { verdict: 'not turned', why };
    /** @type {string[]} */
    const whys = [];
    const left = causes.slice(0, MOST_CAUSES).map((cause) => ({ cause, isLoose: false }));
    for (let tries = 1; left.length && tries <= MOST_TRIES; tries++) {
      const { cause, isLoose } = left.splice(0, 1)[0];
      const one = await this.tryCause({ cause, race, isLoose }, number, tries);
      if ('run' in one && one.isTurned) return { verdict: 'turned', means: cause.words, ...await this.found(one, number, arrive) };
      whys.push(`${cause.words}: ${one.why}${amongOthers(cause)}`);
      if ('counted' in one && one.counted) left.unshift({ cause: one.counted, isLoose });
      else if ('isLate' in one && one.isLate && !isLoose) left.unshift({ cause, isLoose: true });
    }
    return { verdict: 'not turned', why: [...new Set(whys)].join('; ') };
  }

  /**
   * Holds a cause back, and says what came of it. If its run fails, as when the tab crashes, the race is not turned, with the fault's words; if the browser is
   * gone, the replay fails.
   * @param {Pick<Reversal, 'cause'|'race'|'isLoose'>} wanted
   * @param {number} number of the race, from 1
   * @param {number} tries which try this is, from 1
   * @returns {Promise<Reversed & {counted: Cause|null} | {isTurned: false, why: string}>} `counted` is what is to be held back in place of the cause
   */
  async tryCause({ cause, race, isLoose }, number, tries) {
    const { recorded } = this;
    try {
      const sides = isLoose ? recorded.orders.identify(race, recorded.run.keys.loose()) : recorded.orders.sidesOf(race);
      const reversal = { cause, race, sides, isLoose, needed: recorded.lastActBefore(race.actions[1]) };
      const one = await this.inOrder.run(tries > 1 ? `${number}-${tries}` : `${number}`, number, reversal);
      return { ...one, reversal, counted: one.isTurned ? null : countedIn(recorded, one.run, reversal) };
    } catch (error) {
      if (!(error instanceof RecordingFault) || isStop(error) || this.recorder.browser?.isGone) throw error;
      return { isTurned: false, why: error.message };
    }
  }

  // ---- what is found in the other order

  /**
   * What differs, whether the run agrees with the analyzer's order, and what it says of other races.
   * @param {Reversed} one
   * @param {number} number
   * @param {() => void} arrive
   */
  async found(one, number, arrive) {
    const { run, reversal: { race, isLoose }, note = '' } = one;
    const { recorded, traceFile } = this;
    const finding = this.confirm.find(one, number, arrive);
    const ordered = one.pair ? checkOrder({ traceFile, keys: recorded.run.keys, race, number }, { file: run.file, keys: run.keys, pair: one.pair }) : null;
    await allOf(/** @type {Promise<unknown>[]} */ ([finding, ordered]), isStop);
    const found = await finding;
    return {
      ...found,
      turned: this.along.of(run, race, number, found.differences),
      note: [isLoose ? 'found again by looser names' : '', note].filter(Boolean).join('; '),
      group: recorded.orders.ofGroup(run, race),
      order: await ordered || undefined,
      comparedAt: this.comparedAt(run),
      unsent: [...new Set(run.recorder.responses?.refused || [])],
      trace: path.relative(path.dirname(traceFile), run.file),
    };
  }

  /**
   * After what the ends of a restless page are compared, in words.
   * @param {import('./types').FurtherRun} run
   */
  comparedAt(run) {
    const { turns } = this.runs;
    if (!this.recorder.isRestless) return undefined;
    if (!turns) return 'the page never rests: the runs are compared at the same time';
    const { count } = turns;
    const came = countTurns(run.recorder.intake.entries, turns);
    return came === count ? `the page never rests: compared after ${count} of its own turns in each run` : `the page never rests: compared after ${count} of its own turns and ${came}`;
  }
}

/**
 * A note on a cause that is one of several which only their order tells apart.
 * @param {Cause} cause
 */
const amongOthers = ({ means, of = 1 }) => (means === 'callback' && of > 1 ? `, where ${of} are asked for in one way and told apart by their order alone` : '');

module.exports = { Replay, withEnd, chance, isStop, runsAtOnce };
