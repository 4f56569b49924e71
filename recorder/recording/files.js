'use strict';
// The files of a recording: its trace, and the names of the numbers in it. It writes OUT.trace, whole or not at all, and OUT.names.json.

const path = require('node:path');
const { redactedTrace } = require('../common/secrets.js');
const { writeWhole } = require('../common/whole-file.js');
const { Accesses } = require('../trace/accesses.js');
const { beyond, isAt, keepWithin } = require('../trace/limits.js');
const { Names } = require('../trace/names.js');
const { Spelling } = require('../trace/spelling.js');
const { originOf } = require('./origin.js');

/** @typedef {import('./options.js').RecordingOptions} RecordingOptions */

/**
 * A recording as its files need it.
 * @typedef {object} Recorded
 * @property {string} given
 * @property {import('../trace/intake.js').Intake} intake
 * @property {import('../texts/sources.js').Sources} sources
 * @property {{picks: object[]}|null} [user]
 * @property {() => object} [facts] what is saved about a page load of a test suite
 * @property {() => string[]} [lacks] what it lacks of what was to be recorded
 */

/**
 * Called by index-task.js, record.js and suite-loads.js.
 * @param {string} traceFile
 */
const namesFile = (traceFile) => `${traceFile.replace(/\.trace$/, '')}.names.json`;

/**
 * The entries of a recording: all of them, or those that the rules leave.
 * @param {Accesses} accesses
 * @param {Recorded} recorded
 * @param {RecordingOptions} options
 */
function entriesOf(accesses, { sources }, { keepsAll, libraries }) {
  if (keepsAll) return accesses.whole();
  return accesses.entries({ isLibrary: (/** @type {string|undefined} */ place) => sources.isLibrary(place, libraries) });
}

/**
 * The trace of what was recorded so far, and its names, also of a run that goes on (replay/read-run.js). `accesses` and `large` know what was left out.
 * @param {Recorded} recorded
 * @param {RecordingOptions} options
 */
function readRun(recorded, options) {
  const accesses = new Accesses(recorded.intake.entries);
  const spelling = new Spelling(entriesOf(accesses, recorded, options), options.version);
  const all = spelling.records();
  const large = beyond(all.map(({ text }) => text));
  const locations = new Set(large.map(({ location }) => location));
  const small = large.length ? all.filter(({ text }) => !isAt(text, locations)) : all;
  const { records, leftOut, cut } = keepWithin(small);
  const text = [`webtrace ${options.version}`, ...records.map((record) => record.text), 'end'].join('\n');
  const names = new Names(recorded.sources, recorded.intake.names, options.libraries);
  names.addRecords(records, all);
  return { text: `${redactedTrace(text)}\n`, names, accesses, large, leftOut, cut, refused: spelling.refused };
}

/**
 * Writes the trace and its names, also of a recording that ended early. Returns what the limits left out, as lines. Called by driven/load.js and record.js.
 * @param {Recorded} recorded
 * @param {RecordingOptions} options
 * @param {string} traceFile
 */
function writeFiles(recorded, options, traceFile) {
  const { text, names, accesses, large, leftOut, cut, refused } = readRun(recorded, options);
  writeWhole(traceFile, text);
  const recording = originOf(recorded, options, traceFile, text);
  const load = recorded.facts ? { load: recorded.facts() } : {};
  const unmarked = recorded.sources.unmarked.list;
  const tooMuch = large.length ? { leftOut: large } : {};
  const lacks = recorded.lacks?.() || [];
  const facts = { page: recorded.given, trace: path.basename(traceFile), recording, ...load, ofLibraries: accesses.libraries(), ...tooMuch, ...lacks.length ? { notComplete: lacks } : {}, unmarked };
  writeWhole(namesFile(traceFile), names.toJson(facts));
  const lines = accesses.lines();
  for (const { location, accesses: count, pairs } of large) lines.push(`${location}, over the analyzer's limits, left out: ${count} accesses, ${pairs} pairs`);
  if (refused) lines.push(`records that the analyzer would refuse, left out: ${refused}`);
  if (leftOut) lines.push(`parse steps in which nothing happened, left out for the limit on actions: ${leftOut}`);
  if (cut) lines.push(`records over the limits on actions, accesses and lines, cut off: ${cut}`);
  return lines;
}

module.exports = { readRun, writeFiles, namesFile };
