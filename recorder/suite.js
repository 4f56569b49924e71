'use strict';
// er_suite FOLDER..: analyzes the page loads that er_browser recorded, writes their views and index.html, and prints one list of all of them.

const fs = require('node:fs');
const path = require('node:path');
const { runCommand, printHelp } = require('./command.js');
const { printError } = require('./common/output.js');
const { STATUS } = require('./common/status.js');
const { stoppable } = require('./common/stoppable.js');
const { waitForWriters, tracesIn } = require('./driven/trace-folder.js');
const { Known } = require('./list/known.js');
const { reportLoads } = require('./loads.js');
const { answersAtOnce, endAsking, programState } = require('./races/program.js');
const { parseCommand, UsageFault } = require('./recording/options.js');
const { SuiteReplays } = require('./suite-replays.js');

/** @typedef {import('./recording/options.js').CommandOptions} CommandOptions */
/** @typedef {import('./list/loads-listing.js').LoadsListing} LoadsListing */
/** @typedef {import('./loads.js').Judged} Judged */

/** Lines of a recorder's log that say nothing to a reader. */
const QUIET_LINE = /^er_browser: (?:recording|\d+ page loads recorded)$|^ +at /;

/** What a signal ends: that for which this command waits or works now, once. Then it goes on with what there is. */
class Ending {
  isStopped = false;
  /** @type {'wait'|'work'|'over'} */
  next = 'wait';
  /** @type {SuiteReplays|null} */
  replays = null;
  /** @type {() => void} */
  endWait = () => {};
  /** @type {Promise<boolean>} whether there was time to wait: never */
  waitEnds = new Promise((resolve) => { this.endWait = () => resolve(false); });

  /** A signal came. */
  stop() {
    const { next, replays } = this;
    if (replays && !replays.isStopped) return replays.stop();
    if (replays || next === 'over') return endAsking(STATUS.stopped);
    if (next === 'wait') this.endWait();
    else this.isStopped = true;
    this.next = next === 'wait' ? 'work' : 'over';
  }
}

const ending = new Ending();

/**
 * Prints what recorders have written to their logs, except how much they have recorded.
 * @param {string} folder
 */
function printLogs(folder) {
  for (const name of fs.readdirSync(folder).filter((file) => file.endsWith('.log'))) {
    const lines = fs.readFileSync(path.join(folder, name), 'utf8').split('\n').filter((line) => line.trim() && !QUIET_LINE.test(line));
    lines.forEach((line) => printError(`er_suite: ${name}: ${line}`));
  }
}

/**
 * @param {string} folder
 * @returns {Promise<string[]>} the traces in it, once all recorders have written them
 */
async function waitForTraces(folder) {
  if (!await Promise.race([waitForWriters(folder), ending.waitEnds])) printError('er_suite: a recorder still writes: the list has what it has written so far; call er_suite again later for the rest');
  printLogs(folder);
  return tracesIn(folder);
}

/**
 * Analyzes all page loads of the folders, once their recorders have ended, and prints the list. Returns the exit status.
 * @param {string[]} folders
 * @param {CommandOptions} options
 */
async function judgeFolders(folders, options) {
  const known = Known.of(options);
  const traces = await Promise.all(folders.map(waitForTraces));
  if (ending.next === 'wait') ending.next = 'work';
  const page = folders.join(' ');
  const files = traces.flat();
  if (!files.length) {
    printError(`er_suite: no page load was recorded in ${page}: is ER_TRACES this folder, and er_browser the browser of the suite?`);
    return STATUS.noPage;
  }
  traces.forEach((some, k) => { if (!some.length) printError(`er_suite: no page load was recorded in ${folders[k]}`); });
  const [folder] = folders;
  const replay = (/** @type {LoadsListing} */ listing, /** @type {Judged[]} */ judged) => {
    ending.replays = new SuiteReplays(listing, judged, options, folder);
    return ending.replays.run();
  };
  return reportLoads(files, known, options, { command: 'er_suite', folder, page, stopping: ending, ...options.replayWith && { replay } });
}

/** Whether races can be replayed: what is held back for one is found with several questions to the analyzer. */
function canReplay() {
  if (answersAtOnce()) return true;
  printError('er_suite: nothing done: --replay-with needs the built analyzer: run ./er_cli --build (about 25 minutes on four processors)');
  return false;
}

/**
 * er_suite. A folder that is given twice, by whatever path, counts once.
 * @param {string[]} args
 */
async function main(args) {
  const { options, positionals, isHelp } = parseCommand('er_suite', args);
  if (isHelp) return printHelp('er_suite');
  if (!positionals.length) throw new UsageFault('FOLDER is missing');
  const folders = [...new Map(positionals.map((folder) => [path.resolve(folder), folder])).values()];
  const wrong = folders.find((folder) => !fs.statSync(folder, { throwIfNoEntry: false })?.isDirectory());
  if (wrong !== undefined) throw new UsageFault(`there is no folder ${wrong}`);
  if (programState() === 'missing' || (options.replayWith && !canReplay())) return STATUS.noProgram;
  return stoppable(() => ending.stop(), () => judgeFolders(folders, options));
}

runCommand('er_suite', main);
