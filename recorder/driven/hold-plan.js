'use strict';
// What a run of a suite holds back: the file that ER_HOLD names, which er_suite writes.

const fs = require('node:fs');

/**
 * The file. Without `load` nothing is held back, and each load only stores what another run needs of it.
 * @typedef {object} Plan
 * @property {1} hold the version of the file
 * @property {{address: string, nth: number}} [load] the page, and which of its loads in a browser
 * @property {import('../replay/types').Cause & {line?: number, column?: number}} [cause] what is held back; of a wait of the parser also the place of the tag
 * @property {import('../races/types').AccessIdentity} [second] the access that has to come before it is released
 * @property {boolean} [isLoose] how that is found
 * @property {number} [longest] the milliseconds after which it is released in any case
 */

const IS_LOCAL = /^(localhost|127(\.\d+){3}|\[::1\])$/;

/**
 * An address by which a page is found in another run, in which a server of this machine can have another port. Called by browser-recorder.js.
 * @param {string} address
 */
function addressKey(address) {
  try {
    const { hostname, host, pathname, search } = new URL(address);
    return `${IS_LOCAL.test(hostname) ? 'local' : host}${pathname}${search}`;
  } catch {
    return address;
  }
}

/**
 * What was written of a page, as of the same page in another run: with the addresses of that run's server. Called by load-steering.js and suite-replays.js.
 * @template T
 * @param {T} value with texts
 * @param {string} from the address of the page
 * @param {string} to its address in the other run
 * @returns {T}
 */
function movedTo(value, from, to) {
  const [own, other] = [from, to].map((address) => JSON.stringify(new URL(address).origin).slice(1, -1));
  return own === other ? value : JSON.parse(JSON.stringify(value).replaceAll(`${own}/`, `${other}/`));
}

/**
 * The plan in a file. Throws an error if there is none. Called by main.js.
 * @param {string} file
 * @returns {Plan}
 */
function readPlan(file) {
  /** @type {Plan} */
  const plan = JSON.parse(fs.readFileSync(file, 'utf8'));
  if (plan.hold !== 1) throw new Error(`${file} is no file of er_suite --replay-with`);
  return plan;
}

module.exports = { readPlan, addressKey, movedTo };
