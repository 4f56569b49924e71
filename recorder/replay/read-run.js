'use strict';
// The trace, the names and the keys of a run, which may still be under way.

const { Keys } = require('../races/keys.js');
const { readRun } = require('../recording/files.js');

/**
 * Called by due.js and runs.js.
 * @param {import('../recording/recorder.js').Recorder} recorder
 * @param {Parameters<typeof readRun>[1]} options of the recording
 * @param {boolean} isLoose how the keys are made
 */
function readKeys(recorder, options, isLoose = false) {
  const { text, names } = readRun(recorder, options);
  const facts = /** @type {import('../races/types').NamesOfTrace} */ (/** @type {unknown} */ (names.facts()));
  return { text, names, keys: new Keys(text, facts, isLoose) };
}

module.exports = { readKeys };
