'use strict';
// Phases after a recording, which may keep this process busy: a line on standard error every five seconds, and an end by a signal at once. A slow phase shows
// that it still works.

const { Worker } = require('node:worker_threads');
const { SIGNALS } = require('./common/stoppable.js');

/** Milliseconds between two lines. */
const EVERY = 5000;

/** Runs in a thread of its own, so that it prints while this one is busy. */
const PRINTS = `
const { workerData: { words, every } } = require('node:worker_threads');
const { writeSync } = require('node:fs');
const start = Date.now();
setInterval(() => {
  try {
    writeSync(2, words + ': ' + Math.round((Date.now() - start) / 1000) + ' s\\n');
  } catch {
    // nobody reads standard error, or it takes no more now
  }
}, every);`;

/**
 * Does work with a line every five seconds. Called by loads.js, page-races.js and record.js.
 * @template T
 * @param {string} words what is done
 * @param {() => T|Promise<T>} work
 * @returns {Promise<T>}
 */
async function phase(words, work) {
  const thread = new Worker(PRINTS, { eval: true, workerData: { words, every: EVERY } });
  thread.unref();
  thread.on('error', () => {}); // no line is printed then
  try {
    return await work();
  } finally {
    await thread.terminate();
  }
}

/**
 * Does work that keeps this thread busy. A signal ends the process at once: the files that were written stay, and no other process runs for it. Called by
 * loads.js and view.js.
 * @template T
 * @param {() => T} work
 * @returns {T}
 */
function atSignalsMercy(work) {
  const kept = SIGNALS.map((signal) => ({ signal, listeners: process.listeners(/** @type {NodeJS.Signals} */ (signal)) }));
  SIGNALS.forEach((signal) => process.removeAllListeners(signal));
  try {
    return work();
  } finally {
    for (const { signal, listeners } of kept) listeners.forEach((one) => process.on(signal, /** @type {() => void} */ (one)));
  }
}

module.exports = { phase, atSignalsMercy };
