'use strict';
// Waits until a page is at rest: no request is open, no action started for a while, and in a run that is compared nothing is due. The network is idle, and the
// page quiet: then a recording ends.

const { sleep, within } = require('../common/time.js');
const { PLACE_AT_REST } = require('./awaited.js');

/** In milliseconds. */
const POLL = 50;
/** Milliseconds without an open request or a new action after which a page is quiet. */
const QUIET = 400;
/** Of a run that is compared a third of the quiet is enough, if nothing is due in the rest of it. */
const PART_OF_QUIET = 1 / 3;
/** So many milliseconds a page is waited for that is never quiet, as one with an interval. */
const LONGEST_UNREST = 3000;
const QUIET_END = 1200;
const LONGEST_UNREST_AT_END = 8000;
/** The same for a page that must take as many turns as in another run. */
const LONGEST_TURNS_AT_END = 16000;
/** A page that does but one thing again and again is as quiet as it gets after so many milliseconds of it. */
const STEADY = 2 * QUIET_END;
const LONGEST_LOOK = 2000;
/** The part of the time for which acts wait for a page that is not quiet: the rest is for the acts, and for what comes of them. */
const PART_BEFORE_ACTS = 1 / 2;

/** Made by recorder.js for one recording. */
class Rest {
  /** @param {import('./session.js').Session} session */
  constructor(session) {
    this.session = session;
    /** Whether the page went on for as long as it was waited for. */
    this.isRestless = false;
    /** @type {string|null} */
    this.placeAtRest = null;
  }

  /**
   * Returns whether the page was quiet, or as quiet as it gets, before the time of the recording was over.
   * @param {number} [length] milliseconds without an open request or a new action
   * @param {number} [longestUnrest] milliseconds for which a page that is never quiet is waited for
   * @param {() => boolean} [isEnough] ends the waiting
   */
  async waitForQuiet(length = QUIET, longestUnrest = LONGEST_UNREST, isEnough = () => false) {
    const { session } = this;
    const start = Date.now();
    let actions = -1;
    let quietSince = start;
    this.placeAtRest = null;
    while (Date.now() < session.until) {
      await session.flush();
      if (session.openRequests() || session.intake.actions !== actions) quietSince = Date.now();
      actions = session.intake.actions;
      const quiet = Date.now() - quietSince;
      const isQuiet = quiet >= length || (quiet >= length * PART_OF_QUIET && await this.isAtRest(quietSince + length));
      const isTooLong = Date.now() - start > longestUnrest && !session.openRequests();
      this.isRestless = isTooLong && !isQuiet;
      if (isQuiet || isTooLong || isEnough()) return true;
      await sleep(POLL);
    }
    return false;
  }

  /** Waits before the acts of the user. A page that is not quiet must leave time for these. Called by recorder.js. */
  async waitBeforeActs() {
    const { session } = this;
    const { actions, clicks } = session.options;
    const start = Date.now();
    const longest = actions.some(({ isEarly }) => !isEarly) || clicks ? (session.until - start) * PART_BEFORE_ACTS : Infinity;
    await this.waitForQuiet(QUIET, LONGEST_UNREST, () => Date.now() - start > longest);
  }

  /**
   * Whether nothing is due until a time, and nothing moves in the page: two looks find it at the same place.
   * @param {number} until
   */
  async isAtRest(until) {
    const { session } = this;
    if (!session.awaited || session.awaited.mayComeUntil(until, Date.now())) return false;
    const look = session.openTab().evaluateApart(PLACE_AT_REST).catch(() => null); // another page comes
    const place = await within(look, LONGEST_LOOK, null);
    const isSame = place !== null && place === this.placeAtRest;
    this.placeAtRest = place;
    return isSame && !session.openRequests(); // a request may have started meanwhile
  }

  /**
   * Makes a function that is called again and again: whether a page has become quiet in which nothing is due until a time. False in a run that is not compared.
   * Called by acts.js.
   * @param {number} until
   */
  nothingComes(until) {
    const { session } = this;
    let actions = -1;
    let quietSince = 0;
    this.placeAtRest = null;
    return async () => {
      if (!session.awaited) return false;
      await session.flush();
      if (session.openRequests() || session.intake.actions !== actions) quietSince = Date.now();
      actions = session.intake.actions;
      return Date.now() - quietSince >= QUIET && this.isAtRest(until);
    };
  }

  /** If the ends of runs are compared, a page that still does something is waited for longer. Called by recorder.js. */
  waitForEnd() {
    const { whenOver, turns, hasOnlyTurns } = this.session.options;
    if (!whenOver) return this.waitForQuiet();
    if (turns || !hasOnlyTurns) return this.waitForQuiet(QUIET_END, turns ? LONGEST_TURNS_AT_END : LONGEST_UNREST_AT_END);
    return this.waitForSteadyEnd(hasOnlyTurns);
  }

  /**
   * Waits until the page is quiet, or does but one thing again and again.
   * @param {(entries: {text: string, place?: string}[], from: number) => boolean} hasOnlyTurns whether the log from an entry on has only turns of one thing
   */
  async waitForSteadyEnd(hasOnlyTurns) {
    const { session: { intake } } = this;
    /** @type {{time: number, from: number}[]} how much of the log there was at each look */
    const looks = [];
    let isSteady = false;
    const isEnough = () => {
      looks.push({ time: Date.now(), from: intake.log.length });
      while (looks.length > 1 && looks[1].time <= Date.now() - STEADY) looks.shift();
      isSteady = !this.session.openRequests() && looks[0].time <= Date.now() - STEADY && hasOnlyTurns(intake.log, looks[0].from);
      return isSteady;
    };
    const isOver = await this.waitForQuiet(QUIET_END, LONGEST_UNREST_AT_END, isEnough);
    if (isSteady) this.isRestless = true;
    return isOver;
  }

  /**
   * Waits until a replay releases what it holds back. When nothing happens any more, it must. Called by acts.js and recorder.js.
   * @param {() => boolean} isReleased
   */
  async waitForRelease(isReleased) {
    const { steering } = this.session;
    if (!steering) return;
    while (!isReleased() && await this.waitForQuiet(steering.quiet(), steering.longest, isReleased)) {
      if (!isReleased()) steering.giveUp();
    }
  }

  /**
   * Waits for the load event. If a replay holds back something that load waits for, a quiet page is as loaded as it gets. Called by acts.js and recorder.js.
   */
  async waitForLoad() {
    const { session } = this;
    while (!session.isLoaded && Date.now() < session.until) {
      if (session.steering?.isHolding() && await this.waitForQuiet()) return;
      await sleep(POLL);
    }
  }
}

module.exports = { Rest };
