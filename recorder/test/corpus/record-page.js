'use strict';
// Records one page of the evaluation, or does one thing alone with it: its recordings, or the loads for its times. What is done stays in the page's folder.

const fs = require('node:fs');
const os = require('node:os');
const path = require('node:path');
const { writeWhole } = require('../../common/whole-file.js');
const { PageCalls } = require('./calls.js');
const { readLines, appendLine, isDone, areTimesGood } = require('./lines.js');
const { lineOf, failedLine } = require('./page-line.js');

/**
 * @typedef {import('./packages.js').Unpacked} Unpacked
 * @typedef {import('./types').Entry} Entry
 * @typedef {import('./types').Line} Line
 * @typedef {import('./types').Loads} Loads
 * @typedef {import('./types').Recordings} Recordings
 * @typedef {{folder: string, lanes: number, most: number, minutes: number, loads: number, timesOnly: boolean}} Options
 */

/** @param {string} page */
const fileName = (page) => page.replace(/^\/usr\/share\//, '').replace(/[^\w.-]+/g, '-');
/**
 * @param {{page: string}} entry
 * @param {{folder: string}} options
 */
const folderOf = ({ page }, { folder }) => path.join(folder, 'pages', fileName(page));
/** @param {string} folder */
const recordingsIn = (folder) => path.join(folder, 'recordings.json');
/**
 * Beside the folder of the page, which is made anew with its recordings.
 * @param {string} folder
 */
const loadsIn = (folder) => `${folder}.loads.json`;

/** How many processes want to run, on the average of the last minute. */
const loadOfMachine = () => os.loadavg()[0];

/**
 * What decides what times are worth.
 * @param {number[]} loads
 * @param {string} chromium
 * @param {{lanes: number}} options
 */
function machineFacts(loads, chromium, { lanes }) {
  return { chromium, processors: os.cpus().length, sideBySide: lanes, loads: [...loads, loadOfMachine()] };
}

/**
 * The two recordings of a page, with how busy the machine was: new ones, or those of a call that was stopped after them.
 * @param {PageCalls} calls
 * @returns {Promise<Recordings>}
 */
async function recordingsOf(calls) {
  const file = recordingsIn(calls.folder);
  if (fs.existsSync(file)) return JSON.parse(fs.readFileSync(file, 'utf8'));
  fs.rmSync(calls.folder, { recursive: true, force: true });
  fs.mkdirSync(calls.folder, { recursive: true });
  const before = loadOfMachine();
  const recordings = { runs: await calls.runs(), loads: [before, loadOfMachine()] };
  writeWhole(file, JSON.stringify(recordings));
  return recordings;
}

/** The time of all processors so far, and how much of it was idle, in milliseconds. */
function processorTime() {
  const times = os.cpus().map((one) => one.times);
  const sum = (/** @type {(times: os.CpuInfo['times']) => number} */ what) => times.reduce((total, one) => total + what(one), 0);
  return { idle: sum(({ idle }) => idle), all: sum((one) => Object.values(one).reduce((total, time) => total + time, 0)) };
}

/**
 * The loads of a page for their times, with the share of the processors' time that was left meanwhile: those of an earlier call, or new ones.
 * @param {PageCalls} calls
 * @param {number} times
 * @param {(loads: Loads) => boolean} stay  whether those of an earlier call are enough
 * @returns {Promise<Loads>}
 */
async function loadsOf(calls, times, stay) {
  const file = loadsIn(calls.folder);
  const earlier = fs.existsSync(file) ? JSON.parse(fs.readFileSync(file, 'utf8')) : null;
  if (earlier && stay(earlier)) return earlier;
  fs.mkdirSync(calls.folder, { recursive: true });
  const before = processorTime();
  const own = await calls.loads(times);
  const after = processorTime();
  const loads = { ...own, idle: (after.idle - before.idle) / (after.all - before.all || 1) };
  if (times) writeWhole(file, JSON.stringify(loads));
  return loads;
}

/**
 * @param {Entry} entry
 * @param {Unpacked} unpacked
 * @param {Options} options
 */
const callsOf = (entry, unpacked, options) => new PageCalls(path.join(unpacked.root, entry.page), unpacked.root, folderOf(entry, options));

/**
 * What a line has of its page.
 * @param {Entry} entry
 */
const knownOf = ({ needs, ...known }) => known;

/**
 * Records one page, and answers its line.
 * @param {Entry} entry
 * @param {Unpacked} unpacked
 * @param {string} chromium
 * @param {Options} options
 * @returns {Promise<Line>}
 */
async function recordPage(entry, unpacked, chromium, options) {
  const known = knownOf(entry);
  const begin = Date.now();
  const loadsOfMachine = [loadOfMachine()];
  const facts = () => ({ began: new Date(begin).toISOString(), seconds: (Date.now() - begin) / 1000, machine: machineFacts(loadsOfMachine, chromium, options) });
  try {
    known.version = await unpacked.versionOf(entry.package);
    const calls = callsOf(entry, unpacked, options);
    const recordings = await recordingsOf(calls);
    loadsOfMachine.push(...recordings.loads);
    const loads = await loadsOf(calls, options.loads, () => true);
    const replay = await calls.replay(options);
    const measured = await calls.measure();
    return lineOf(known, { runs: recordings.runs, loads, replay, measured, costs: await calls.costs() }, facts());
  } catch (fault) {
    return failedLine(known, fault, facts());
  }
}

/**
 * Makes the two recordings of a page alone.
 * @param {PageCalls} calls
 */
async function recordAlone(calls) {
  await recordingsOf(calls);
  return 'recorded';
}

/**
 * Loads a page for its times alone, and puts them into its line, where it has one.
 * @param {PageCalls} calls
 * @param {Entry} entry
 * @param {Options} options
 * @param {string} file
 */
async function timeAlone(calls, { page }, options, file) {
  const loads = await loadsOf(calls, options.loads, areTimesGood);
  const line = readLines(file).filter(isDone).find((one) => one.page === page);
  if (line) appendLine(file, { ...line, loads });
  return `timed${areTimesGood(loads) ? '' : ' with other work on the machine'}: ${loads.without.join(' ')} s without the recorder, ${loads.with.join(' ')} s with it`;
}

/**
 * Does one thing alone with a page, and answers what came of it.
 * @param {Entry} entry
 * @param {Unpacked} unpacked
 * @param {Options} options
 * @param {string} file
 */
async function doAlone(entry, unpacked, options, file) {
  const calls = callsOf(entry, unpacked, options);
  try {
    return `${entry.page}: ${options.timesOnly ? await timeAlone(calls, entry, options, file) : await recordAlone(calls)}`;
  } catch (fault) {
    return `${entry.page}: failed: ${fault instanceof Error ? fault.message || fault : fault}`;
  }
}

module.exports = { recordPage, doAlone, fileName, folderOf, recordingsIn };
