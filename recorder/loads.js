'use strict';
// Many page loads analyzed, with one list of all of them: what er_suite does with the loads of a test suite, and er_page --list with those of addresses.

const fs = require('node:fs');
const path = require('node:path');
const { eachAtOnce } = require('./common/at-once.js');
const { STATUS } = require('./common/status.js');
const { faultOf, makeFolder, writeWhole } = require('./common/whole-file.js');
const { print, printError } = require('./common/output.js');
const { junitOf } = require('./list/loads-junit.js');
const { LoadsListing } = require('./list/loads-listing.js');
const { loadsPage } = require('./list/loads-page.js');
const { LoadRuns } = require('./list/loads-run.js');
const { writeOutputs, tellLines, totalsOf } = require('./list/outputs.js');
const { LoadJudge } = require('./load-judge.js');
const { LoadJudges } = require('./load-judges.js');
const { atSignalsMercy, phase } = require('./phase.js');
const { answersAtOnce, askAhead, programFacts } = require('./races/program.js');
const { besides } = require('./view.js');

/** @typedef {import('./recording/options.js').ListOptions} ListOptions */
/** @typedef {import('./list/known.js').Known} Known */
/** @typedef {import('./list/types').Load} Load */
/**
 * A load that was analyzed.
 * @typedef {{file: string, run: import('./list/loads-run.js').LoadRun, load: Load}} Judged
 */
/**
 * `isStopped` is set by a signal: then no other load is analyzed, and those that were are listed.
 * @typedef {{isStopped: boolean}} Stopping
 */
/**
 * Where loads are listed: `folder` gets index.html without --html. `replay` runs problems of the list again, and returns a status.
 * @typedef {{command: 'er_suite'|'er_page', folder: string, page: string, stopping?: Stopping, replay?: (listing: LoadsListing, judged: Judged[]) => Promise<number>}} Place
 */

/** So many traces are analyzed at once, and are in memory. */
const AT_ONCE = 4;
/** In a list of more loads, a view has the paths only for the problems that no earlier load has: each path is a query of the analyzer. */
const MOST_LINKED = 10;
/** So many loads are analyzed by this process alone: others take time to start. */
const MOST_ALONE = 20;
const OF_DRIVER = /while nothing recorded ran/;

/**
 * Has the loads analyzed, and writes their reports and views. Of each load only what the list needs stays in memory. Called by index-task.js.
 * @param {string[]} files the traces
 * @param {'er_suite'|'er_page'} command
 * @param {Known|null} known
 * @param {{isJson: boolean}} options
 * @param {Stopping} [stopping] without it, a signal ends the process
 * @returns {Promise<{judged: Judged[], failed: number}>} `failed` is the status of the first load that was not analyzed
 */
async function judgeLoads(files, command, known, { isJson }, stopping) {
  await askAhead(files);
  const start = { program: programFacts(), command, known: known && known.file, isWhole: isJson, isLinkedAll: files.length <= MOST_LINKED, hearsSignals: !!stopping };
  const isAlone = files.length <= MOST_ALONE || !answersAtOnce();
  const judges = isAlone ? null : new LoadJudges(start);
  const alone = new LoadJudge(start);
  const runs = new LoadRuns(isJson);
  /** @type {Judged[]} */
  const judged = [];
  /** @type {Promise<number>[]} */
  const statuses = [];
  const judgeNext = async (/** @type {string} */ file, /** @type {number} */ k) => {
    if (stopping?.isStopped) return STATUS.stopped;
    const { stored, status } = await (judges ? judges.judge(k, file) : alone.judge(file));
    await statuses[k - 1]; // loads join the list in order
    if (stored) judged.push({ file, run: runs.take(stored.facts), load: stored.load });
    return status;
  };
  try {
    const all = await eachAtOnce(files, judges ? judges.atOnce : AT_ONCE, (file, k) => {
      statuses[k] = judgeNext(file, k);
      return statuses[k];
    });
    return { judged, failed: stopping?.isStopped ? STATUS.stopped : all.find((status) => status) || STATUS.ok };
  } finally {
    await judges?.end();
  }
}

/** @param {Load[]} loads */
function printErrors(loads) {
  const errors = loads.flatMap((load) => (load.errors || []).map((error) => `${error} in ${load.address}`));
  new Set(errors).forEach((error) => printError(`  error: ${error}`));
}

/**
 * Prints what the recordings lack of their pages, over all loads. What a driver's code does between two tasks is in each of them (docs/suites.md).
 * @param {Load[]} loads
 */
function printLosses(loads) {
  /** @type {Map<string, {count: number, loads: number}>} */
  const losses = new Map();
  for (const line of loads.flatMap(({ lost = [] }) => lost).filter((one) => !OF_DRIVER.test(one))) {
    const [, what, count] = /^(.*): (\d+)$/.exec(line) || ['', line, '1'];
    const sum = losses.get(what) || { count: 0, loads: 0 };
    losses.set(what, { count: sum.count + Number(count), loads: sum.loads + 1 });
  }
  losses.forEach(({ count, loads: some }, what) => printError(`  not recorded: ${what}: ${count}, in ${some} page load${some === 1 ? '' : 's'}`));
}

/**
 * Copies the views into the folder of --html, so that the folder can be published without the traces. Returns their names there.
 * @param {Judged[]} judged
 * @param {string} folder
 */
function copyViews(judged, folder) {
  makeFolder(path.join(folder, 'views'));
  return judged.map(({ file }, k) => {
    const name = `views/${String(k + 1).padStart(3, '0')}-${path.basename(besides(file, '.html'))}`;
    try {
      fs.copyFileSync(besides(file, '.html'), path.join(folder, name), fs.constants.COPYFILE_FICLONE);
    } catch (fault) {
      throw faultOf(path.join(folder, name), fault);
    }
    return name;
  });
}

/**
 * Writes index.html. Returns its path. Called by index-task.js.
 * @param {LoadsListing} listing
 * @param {Judged[]} judged
 * @param {string} folder without --html
 * @param {string|null} html
 */
function writeIndex(listing, judged, folder, html) {
  const links = html ? copyViews(judged, html) : judged.map(({ file }) => path.relative(folder, besides(file, '.html')));
  const index = path.join(html || folder, 'index.html');
  writeWhole(index, loadsPage(listing, judged.map(({ load }) => load), links));
  return index;
}

/**
 * One list of analyzed loads. Called by index-task.js.
 * @param {Judged[]} judged
 * @param {Known|null} known
 * @param {ListOptions} options
 * @param {string} folder from which the list names the views, each with the name of its test
 */
function listingOf(judged, known, options, folder) {
  const views = judged.map(({ file, load }) => `${path.relative(folder, besides(file, '.html'))}${load.test?.name ? ` (${load.test.name})` : ''}`);
  return new LoadsListing(judged.map(({ run }) => run), known, options, views);
}

/**
 * Writes the outputs that the options request. Called by index-task.js.
 * @param {LoadsListing} listing
 * @param {Judged[]} judged
 * @param {ListOptions} options
 * @param {{page: string, status: number}} facts
 */
function writeLists(listing, judged, options, { page, status }) {
  const loads = judged.map(({ load }) => load);
  writeOutputs(listing, options, { page, status, files: judged.map(({ file }) => file), folder: null, loads });
  if (options.junit) writeWhole(options.junit, junitOf(listing));
}

/**
 * Prints and writes the list of the loads. Returns the status.
 * @param {Judged[]} judged
 * @param {number} failed the status of a load that was not analyzed
 * @param {Known|null} known
 * @param {ListOptions} options
 * @param {Place} place
 */
async function listLoads(judged, failed, known, options, { command, folder, page, stopping, replay }) {
  const listing = listingOf(judged, known, options, folder);
  const status = failed || (listing.failing().length ? STATUS.race : STATUS.ok);
  const replayed = replay && !stopping?.isStopped ? await replay(listing, judged) : STATUS.ok;
  printErrors(judged.map(({ load }) => load));
  if (command === 'er_suite') printLosses(judged.map(({ load }) => load)); // er_page has printed them
  tellLines(listing, options);
  writeLists(listing, judged, options, { page, status });
  const index = writeIndex(listing, judged, folder, options.html);
  const printLine = options.isJson ? printError : print;
  printLine(`${page}: ${judged.length} page loads, ${options.html ? index : 'index.html'}`);
  printLine(`${totalsOf(listing)}; the views are named in ${index}`);
  return replayed || status;
}

/**
 * Has loads analyzed and listed. Returns the status. Called by many-pages.js, page-flow.js and suite.js.
 * @param {string[]} files the traces
 * @param {Known|null} known
 * @param {ListOptions} options
 * @param {Place} place
 */
async function reportLoads(files, known, options, place) {
  const { judged, failed } = await phase('analyzing the page loads and writing their views', () => judgeLoads(files, place.command, known, options, place.stopping));
  if (place.stopping?.isStopped) printError(`${place.command}: stopped: the list has ${judged.length} of ${files.length} page loads`);
  else if (judged.length && failed) printError(`${place.command}: ${files.length - judged.length} of ${files.length} page loads could not be analyzed`);
  if (!judged.length) return failed;
  return phase('listing the races', () => atSignalsMercy(() => listLoads(judged, failed, known, options, place)));
}

module.exports = { reportLoads, judgeLoads, listingOf, writeLists, writeIndex };
