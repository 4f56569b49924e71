'use strict';
// Delays each file except pages (of frames too), as a slow network does. `--slow MS`: up to so many milliseconds of latency, by the address of the file.

const { sleep } = require('../../common/time.js');

/** @typedef {import('./paused.js').Paused} Paused */

/**
 * A number for a text, the same in each run, so that `--slow` delays the same files by the same times.
 * @param {string} text
 */
function hash(text) {
  let value = 7;
  for (let k = 0; k < text.length; k++) value = (value * 31 + text.charCodeAt(k)) >>> 0;
  return value;
}

/** An interceptor: `Responses` calls `passRequest` for each request with `--slow`. */
class SlowNetwork {
  /**
   * @param {number} most delays a file by up to so many milliseconds
   * @param {number} salt with another one, other files are delayed
   */
  constructor(most, salt) {
    this.most = most;
    this.salt = salt;
  }

  /**
   * Delays a file by its address.
   * @param {Paused} event
   */
  async passRequest({ request, resourceType }) {
    if (resourceType !== 'Document') await sleep(hash(`${request.url}${this.salt || ''}`) % this.most);
    return false;
  }
}

module.exports = { SlowNetwork };
