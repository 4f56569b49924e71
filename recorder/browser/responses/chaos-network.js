'use strict';
// Delays requests by seeded amounts (`er_record --chaos`): each request of an address by another one, pages too.

const { seeded } = require('../../common/seeded.js');
const { sleep } = require('../../common/time.js');

/** @typedef {import('./paused.js').Paused} Paused */

/** The most milliseconds for which a request is held back; about half of the requests are not. */
const MOST = 350;

/** An interceptor: `Responses` calls `passRequest` for each request with `--chaos`. */
class ChaosNetwork {
  /** @param {number} seed that of `--chaos`: the same delays for the same requests */
  constructor(seed) {
    this.seed = seed;
    /** @type {Map<string, number>} how often an address was requested */
    this.asked = new Map();
  }

  /**
   * Delays a request by the seed.
   * @param {Paused} event
   */
  async passRequest({ request: { url } }) {
    const nth = (this.asked.get(url) || 0) + 1;
    this.asked.set(url, nth);
    const wait = (seeded(this.seed, `request ${nth} ${new URL(url).pathname}`) * 2 - 1) * MOST;
    if (wait > 0) await sleep(wait);
    return false;
  }
}

module.exports = { ChaosNetwork };
