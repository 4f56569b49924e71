'use strict';
// One thing that a run of a replay holds back. A response, a timer, an event or an act of the user; of several requests of one address (retries), that with a
// number.

const { HOLD_NAME } = require('../browser/content-policy.js');
const { inAnyRun } = require('../common/request-address.js');

/** @typedef {import('./steering.js').Paused} Paused */

/** @param {string} type */
const isReply = (type) => type === 'XHR' || type === 'Fetch';

/** Made by RunSteering, for each reversal and each order that is kept. */
class Hold {
  /**
   * @param {import('./types').Wanted} wanted
   * @param {number} id
   */
  constructor({ cause, due = null, needed = 0, length = null }, id) {
    this.cause = cause;
    this.due = due;
    this.needed = needed;
    this.length = length;
    this.id = id;
    this.isReleased = false;
    /** Whether what had to come before came. */
    this.isReached = false;
    /** When it began to wait; 0 before. */
    this.heldAt = 0;
    /** For how many milliseconds it has waited. */
    this.heldFor = 0;
    this.met = 0;
    /**
     * The keys of the requests that wait.
     * @type {Set<string>}
     */
    this.requests = new Set();
    /** @type {() => void} */
    this.open = () => {};
    /** @type {Promise<void>} */
    this.over = new Promise((resolve) => { this.open = resolve; });
  }

  /** What page/recording/steering.js gets of it, or null. */
  forPage() {
    const { means, word, place, way, nth, address, event } = this.cause;
    if (means === 'callback' || means === 'event') return { id: this.id, word: word || '', place, way, nth, event };
    if (means === 'load' && address) return { id: this.id, word: 'load', address, source: this.source(address) };
    return null;
  }

  /**
   * The address at which the parser or the load waits. Called by steering.js.
   * @param {string} address
   */
  source(address) {
    return new URL(`/${HOLD_NAME}?${this.id}`, address).href;
  }

  /**
   * Whether it makes the parser of a page wait, and goes on. Called by steering.js.
   * @param {string} address
   */
  isOfPage(address) {
    return this.cause.means === 'parser' && this.cause.address === address && !this.isReleased;
  }

  /**
   * Whether a request is the one to hold back. Called by steering.js.
   * @param {Paused} request
   */
  meets({ request, resourceType, redirectedRequestId }) {
    const { means, address, isReply: isOfCode, nth } = this.cause;
    if (means !== 'response' || this.isReleased || redirectedRequestId) return false;
    if (inAnyRun(request.url) !== inAnyRun(address || '') || isReply(resourceType) !== isOfCode) return false;
    this.met++;
    return this.met === nth;
  }

  /** Notes that it waits now. Called by steering.js. */
  hold() {
    if (!this.heldAt) this.heldAt = Date.now();
  }

  /** Whether it has a length, and has waited for it. Called by steering.js. */
  isOver() {
    return this.length !== null && this.heldAt > 0 && Date.now() - this.heldAt >= this.length;
  }

  /** Whether it waits for its length. Called by steering.js. */
  isTimed() {
    return this.length !== null && this.heldAt > 0 && !this.isReleased;
  }

  /**
   * Waits until it is released. Called by steering.js.
   * @param {string} key of the request that waits
   */
  async wait(key) {
    if (this.isReleased) return;
    this.hold();
    if (key) this.requests.add(key);
    await this.over;
  }

  /** Lets everything go that it holds back. Called by steering.js. */
  release() {
    this.isReleased = true;
    this.heldFor = this.heldAt ? Date.now() - this.heldAt : 0;
    this.requests.clear();
    this.open();
  }
}

module.exports = { Hold };
