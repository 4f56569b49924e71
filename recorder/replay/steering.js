'use strict';
// What one run of a replay holds back, each thing (a hold) until something else has come: then it is released, and what waits goes on. It gives up (timeout) if
// the second access does not come.

const { HOLD_NAME } = require('../browser/content-policy.js');
const { ofRecording } = require('../recording/page-script.js');
const { Hold } = require('./hold.js');

/** @typedef {import('./types').Act} Act */
/** @typedef {import('./types').Wanted} Wanted */
/**
 * A request that the browser has paused, as the protocol's Fetch domain reports it.
 * @typedef {{request: {url: string}, resourceType: string, redirectedRequestId?: string, networkId?: string, requestId: string}} Paused
 */

/** @param {Pick<Paused, 'networkId'|'requestId'>} request */
const keyOf = ({ networkId, requestId }) => networkId ?? requestId;
/** The pause between two looks at the log, in lengths of the first look. */
const PATIENCE = 2;
/** If a page has been quiet for so many milliseconds, and all acts are done, what it waits for does not come. */
const QUIET_WITH_ORDER_HOLDS = 500;
const QUIET_WITH_REVERSALS = 2000;
/** Milliseconds between two looks at the clock. */
const TICK = 20;

/** It implements `Holds` (browser/responses/paused.js); runs.js makes one for each run, and load-steering.js extends it for driven loads. */
class RunSteering {
  /**
   * @param {Wanted[]} reversals what is held back so that races come in the other order
   * @param {Wanted[]} orderHolds what is held back so that other races come in their recorded order
   * @param {number} longest milliseconds after the start of the navigation at which everything is released
   * @param {number} others how many runs go on at once, each with its looks at the log
   */
  constructor(reversals, orderHolds, longest, others = 1) {
    this.holds = [...reversals, ...orderHolds].map((wanted, k) => new Hold(wanted, k + 1));
    this.reversals = this.holds.slice(0, reversals.length);
    this.orderHolds = this.holds.slice(reversals.length);
    this.longest = longest;
    /** Whether the code of what it inserts into a page is inline (browser/content-policy.js). */
    this.isInline = false;
    this.patience = PATIENCE * others;
    /**
     * The holds of each request that waits.
     * @type {Map<string, Hold[]>}
     */
    this.met = new Map();
    this.nextLook = 0;
    /** @type {NodeJS.Timeout|null} */
    this.later = null;
    /** @type {NodeJS.Timeout|undefined} */
    this.timer = undefined;
    /** @type {NodeJS.Timeout|undefined} */
    this.clock = undefined;
    /**
     * The run that is steered.
     * @type {import('../recording/recorder.js').Recorder|null}
     */
    this.recorder = null;
  }

  // ---- its course

  /**
   * The run begins: what is held back is released at the latest after the longest time.
   * @param {import('../recording/recorder.js').Recorder} recorder
   */
  begin(recorder) {
    this.recorder = recorder;
    this.timer = setTimeout(() => this.holds.forEach((hold) => this.release(hold)), this.longest);
    this.timer.unref();
    if (!this.reversals.some(({ length }) => length !== null)) return;
    this.clock = setInterval(() => this.releaseInTime(), TICK);
    this.clock.unref();
  }

  /** Releases the holds whose length is over. */
  releaseInTime() {
    this.noteHeld();
    this.reversals.filter((hold) => hold.isOver()).forEach((hold) => this.release(hold));
  }

  /** Notes what waits in the page, as its log says. */
  noteHeld() {
    this.recorder?.intake.names.forEach(({ kind, number }) => { if (kind === 'held') this.holds[Number(number) - 1]?.hold(); });
  }

  /** Called when new lines of the log have come: releases the holds for which what they wait for is among them. */
  look() {
    const { recorder } = this;
    if (!recorder || this.isReleased() || this.isLookingLater()) return;
    const start = Date.now();
    this.noteHeld();
    for (const hold of this.holds.filter(({ isReleased }) => !isReleased)) {
      if (!hold.due?.hasCome(recorder)) continue;
      hold.isReached = true;
      this.release(hold);
    }
    this.nextLook = Date.now() + this.patience * (Date.now() - start);
  }

  /** Whether the next look comes later. A look at a long log takes long, and the driver has other things to do. */
  isLookingLater() {
    const wait = this.nextLook - Date.now();
    if (wait <= 0) return false;
    if (!this.later) this.later = setTimeout(() => { this.later = null; this.look(); }, wait);
    return true;
  }

  /**
   * Releases a hold, in the page too.
   * @param {Hold} hold
   */
  release(hold) {
    if (hold.isReleased) return;
    hold.release();
    if (this.reversals.every(({ isReleased }) => isReleased)) clearInterval(this.clock);
    if (this.isReleased()) clearTimeout(this.timer);
    if (!hold.forPage()) return;
    const { recorder } = this;
    const answer = recorder?.tab?.evaluate(ofRecording(recorder.ownNames, `.steering.letGo(${hold.id})`));
    answer?.catch(() => {}); // a page that has gone holds nothing back
  }

  /** Whether nothing is held back any more. */
  isReleased() {
    return this.holds.every(({ isReleased }) => isReleased);
  }

  /** Milliseconds of quiet after which only what is held back can keep a page from going on. */
  quiet() {
    return this.waitingOrderHolds().length ? QUIET_WITH_ORDER_HOLDS : QUIET_WITH_REVERSALS;
  }

  waitingOrderHolds() {
    return this.orderHolds.filter(({ isReleased }) => !isReleased);
  }

  /** Releases something, as nothing comes any more: first what holds other races in their order. What waits for a length does so. */
  giveUp() {
    if (this.reversals.some((hold) => hold.isTimed())) return;
    const others = this.waitingOrderHolds();
    const given = others.length ? others : this.reversals.filter(({ isReleased }) => !isReleased).slice(0, 1);
    given.forEach((hold) => this.release(hold));
  }

  /** Whether the page may wait for a request that is held back. */
  isHolding() {
    return this.holds.some(({ isReleased, requests }) => !isReleased && requests.size > 0);
  }

  // ---- in the page

  /** What the page gets of the holds (page/recording/steering.js). Called by driven/load-steering.js and replay/in-order.js. */
  forPage() {
    return this.holds.map((hold) => hold.forPage()).filter(Boolean);
  }

  /**
   * What is inserted into a page so that its parser waits.
   * @param {string} address
   * @param {string} text
   */
  insertions(address, text) {
    return this.holds.filter((hold) => hold.isOfPage(address)).map((hold) => {
      const start = hold.cause.offset ?? text.length;
      return { start, end: start, insert: `<script data-er-hold nonce="${HOLD_NAME}" src="${hold.source(address)}"></script>` };
    });
  }

  // ---- requests

  /**
   * Whether a request is to be held back.
   * @param {Paused} request
   */
  meets(request) {
    const holds = this.holds.filter((hold) => hold.meets(request));
    if (holds.length) this.met.set(keyOf(request), holds);
    return holds.length > 0;
  }

  /**
   * Whether a request is one that is held back.
   * @param {Paused} request
   */
  isMet(request) {
    return this.met.has(keyOf(request));
  }

  /**
   * Waits until the holds of a request are released.
   * @param {Paused} request
   */
  async hold(request) {
    const key = keyOf(request);
    await Promise.all((this.met.get(key) || []).map((hold) => hold.wait(key)));
  }

  /**
   * Holds back what the parser or the load waits for.
   * @param {number} id
   * @param {Paused} request
   */
  async holdFor(id, request) {
    await this.holds[id - 1]?.wait(keyOf(request));
  }

  /**
   * How many of the open requests are held back.
   * @param {Set<string>} open
   */
  countHeld(open) {
    return new Set(this.holds.flatMap(({ requests }) => [...requests]).filter((one) => open.has(one))).size;
  }

  // ---- the user

  /**
   * The user's acts in the order of this run: an act that is held back comes after those that its race needs.
   * @template {Act} T
   * @param {{early: T[], late: T[]}} acts
   */
  actions({ early, late }) {
    const moved = this.reversals.map(({ cause }) => cause).find(({ means, act = 0, after = 0 }) => means === 'act' && after >= act);
    if (!moved) return { early, late };
    const all = [...early, ...late];
    const held = all.find(({ number }) => number === moved.act);
    if (!held) return { early, late };
    const rest = all.filter((one) => one !== held);
    rest.splice(Math.max(all.indexOf(held), rest.findIndex(({ number }) => number === moved.after) + 1), 0, held);
    const split = rest.findIndex(({ isEarly }) => !isEarly);
    return split < 0 ? { early: rest, late: [] } : { early: rest.slice(0, split), late: rest.slice(split) };
  }

  /**
   * Whether an act has to wait: it is held back, or nothing that a hold waits for needs it.
   * @param {Pick<Act, 'number'|'kind'>} act
   */
  blocks({ number, kind }) {
    if (kind === 'wait') return false;
    /** @param {Hold} hold */
    const isHeld = ({ cause }) => cause.means === 'act' && cause.act === number;
    const blocking = this.holds.filter((hold) => !hold.isReleased && (isHeld(hold) || number > hold.needed));
    blocking.filter(isHeld).forEach((hold) => hold.hold());
    return blocking.length > 0;
  }
}

module.exports = { RunSteering };
