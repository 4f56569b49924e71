'use strict';
// How much a program does, in numbers that are the same on a busy machine: how often its functions and the blocks in them run. To be loaded before what is
// counted: only what is compiled later has counters.

const { Session } = require('node:inspector');
const path = require('node:path');
const { pathToFileURL } = require('node:url');

/** @typedef {{url: string, functions: {ranges: {count: number}[]}[]}} OfScript */

const RECORDER = path.join(__dirname, '..');
const session = new Session();
session.connect();
session.post('Profiler.enable');
session.post('Profiler.startPreciseCoverage', { callCount: true, detailed: true });

/** The counts since they were last taken. @returns {OfScript[]} */
function takeCounts() {
  /** @type {OfScript[]} */
  let counts = [];
  session.post('Profiler.takePreciseCoverage', (error, taken) => { // answers before it returns
    if (error) throw error;
    counts = /** @type {{result: OfScript[]}} */ (taken).result;
  });
  return counts;
}

/**
 * Counts the runs of the functions of some folders of the recorder, and of the blocks in them.
 * @param {string[]} folders
 * @param {() => unknown} work
 */
function countRuns(folders, work) {
  const starts = folders.map((folder) => `${pathToFileURL(path.join(RECORDER, folder)).href}/`);
  takeCounts();
  work();
  const own = takeCounts().filter(({ url }) => starts.some((start) => url.startsWith(start)));
  return own.flatMap(({ functions }) => functions.flatMap(({ ranges }) => ranges)).reduce((sum, { count }) => sum + count, 0);
}

module.exports = { countRuns };
