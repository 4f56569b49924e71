// What an `await` of an async function keeps until the code goes on: instrumented code stores it in a variable of the page, so it shows nothing.

import { hideClass } from '../core/hiding.js';

/**
 * @typedef {ReturnType<import('../tasks/jobs').Jobs['ask']>} Asked
 */

/**
 * What an object keeps; null if it is none of these.
 * @type {(kept: unknown) => Asked|null}
 */
let askedOf;

class Await {
  #asked;

  static {
    askedOf = (kept) => (typeof kept === 'object' && kept !== null && #asked in kept ? kept.#asked : null);
  }

  /** @param {Asked} asked */
  constructor(asked) {
    this.#asked = asked;
  }
}

hideClass(Await);

/**
 * The helpers of `await` and of modules with `await` at their top.
 * Called by helpers.js.
 * @param {import('../types').Page} page
 */
function helpersOfAwaits({ jobs, modules }) {
  return {
    /** @type {(site: number, isOfModule?: number) => Await} */
    as: (site, isOfModule) => {
      const kept = new Await(jobs.ask(null, site));
      if (isOfModule) modules.waits();
      return kept;
    },
    /** @type {(promise: unknown, kept: unknown) => unknown} */
    aw: (promise, kept) => {
      const asked = askedOf(kept);
      if (asked !== null) asked.v = promise;
      return promise;
    },
    /** @type {(value: unknown, kept: unknown) => unknown} */
    ao: (value, kept) => {
      const asked = askedOf(kept);
      if (asked !== null) jobs.goesOn(asked);
      return value;
    },
  };
}

export { helpersOfAwaits };
