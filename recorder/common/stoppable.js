'use strict';
// Work that a signal (Ctrl-C, a kill, a closed terminal) stops in an orderly way, for the commands. The signals are SIGINT, SIGTERM and SIGHUP.

/** The signals that end a command. */
const SIGNALS = ['SIGINT', 'SIGTERM', 'SIGHUP'];

/**
 * Runs work that a signal stops. Meanwhile a signal does not end the process: `stop` must see to it that `work` settles. Calls can be nested: a signal then
 * calls each `stop`.
 * @template T
 * @param {() => void} stop called for the first signal, and again for each further one
 * @param {() => Promise<T>} work
 * @returns {Promise<T>} the result of `work`, or its fault
 */
async function stoppable(stop, work) {
  SIGNALS.forEach((signal) => process.on(signal, stop));
  try {
    return await work();
  } finally {
    SIGNALS.forEach((signal) => process.off(signal, stop));
  }
}

module.exports = { stoppable, SIGNALS };
