#!/usr/bin/env node
'use strict';
// orders.js [--times N] [--seed N] [--into FILE] [--traces FOLDER] [--read] [--plain] [--keep] PAGE..: records each page N times (8), the first time as it is, then
// with other seeds of --chaos (--plain: none), and compares the orders of conflicting accesses with the rules. A pair that came in both orders and that
// the rules order in some run is an error of the rules, of the recorder or of the names here: it is printed, and the status is 1. With --keep all
// accesses are compared. A PAGE is a package of packaged.json (`packaged`: all), a file of pages/, a file or an address. With --corpus FOLDER the pages are
// those of the evaluation (measured-corpus.js has the options); recordings of earlier calls stay, so that one with a greater N only makes those that lack.

const fs = require('node:fs');
const path = require('node:path');
const { Chromium } = require('../browser/chromium.js');
const { judgeWithin } = require('../races/within-limits.js');
const { namesFile, writeFiles } = require('../recording/files.js');
const { parseOptions } = require('../recording/options.js');
const { Recorder } = require('../recording/recorder.js');
const { temporaryFolder } = require('./cleanup.js');
const { takeCorpus, pageOfCorpus, measureCorpus, commitsOf } = require('./measured-corpus.js');
const { takeOptions, pagesOf, tableOf, writeSection } = require('./measured-pages.js');
const { RunPairs, compareRuns } = require('./orders-pairs.js');
const { reasonsOfActions } = require('./orders-actions.js');
const { reasonsOf } = require('./orders-reasons.js');
const { HEAD, lineOf, rowOf, inWords, isBroken, sumTables } = require('./orders-tables.js');

/** @typedef {import('./measured-pages.js').MeasuredPage} MeasuredPage */
/** @typedef {import('./measured-corpus.js').OverCorpus} OverCorpus */
/** @typedef {import('./orders-tables.js').OrdersLine} OrdersLine */
/**
 * How pages are recorded: `isRead`: not at all; `goesOn`: only those runs that are not there.
 * @typedef {{times: number, seed: number, folder: string, words: string[], isPlain?: boolean, isRead?: boolean, goesOn?: boolean}} How
 */

const SIZE = { width: 1100, height: 800 };
const LEAST_RUNS = 2;
/** @type {{[kind: string]: number}} */
const MOST_PRINTED = { broken: 20, undecided: 5, lacking: 3 };

/**
 * Records a page once.
 * @param {Chromium} browser
 * @param {MeasuredPage} page
 * @param {number} run
 * @param {How} how
 */
async function recordRun(browser, page, run, how) {
  const options = { ...parseOptions([...page.words, ...how.words]), browser, chaos: how.isPlain || run === 0 ? null : how.seed + run };
  const recorder = new Recorder(page.page, options);
  await recorder.record();
  writeFiles(recorder, options, fileOf(page, run, how));
}

/**
 * @param {MeasuredPage} page
 * @param {number} run
 * @param {How} how
 */
const fileOf = ({ name, file = name.replace(/\W+/g, '-') }, run, { folder }) => path.join(folder, `${file}.${run}.trace`);

/**
 * Whether a recording is there with its names, which are written after it.
 * @param {string} file
 */
const isRecorded = (file) => fs.existsSync(file) && fs.existsSync(namesFile(file));

/** @param {string} file of a trace, which is analyzed */
async function readRun(file) {
  const { report, fault } = await judgeWithin(file);
  if (!report || report.refused) throw new Error(`no report of ${file}: ${fault || JSON.stringify(report?.refused)}`);
  return { file, pairs: new RunPairs(fs.readFileSync(file, 'utf8'), JSON.parse(fs.readFileSync(namesFile(file), 'utf8')), report) };
}

/**
 * Records a page several times. Returns why the recordings failed that did.
 * @param {MeasuredPage} page
 * @param {How} how
 */
async function recordRuns(page, how) {
  const runs = Array.from({ length: how.times }, (_, run) => run).filter((run) => !(how.goesOn && isRecorded(fileOf(page, run, how))));
  /** @type {string[]} */
  const failures = [];
  if (!runs.length) return failures;
  const browser = await Chromium.launch(SIZE);
  try {
    for (const run of runs) await recordRun(browser, page, run, how).catch((fault) => { failures.push(`run ${run}: ${fault.message || fault}`); });
  } finally {
    await browser.close();
  }
  return failures;
}

/**
 * @param {MeasuredPage} page
 * @param {How} how
 */
async function compareOrders(page, how) {
  const failures = how.isRead ? [] : await recordRuns(page, how);
  const files = Array.from({ length: how.times }, (_, run) => fileOf(page, run, how)).filter(isRecorded);
  if (files.length < LEAST_RUNS) throw new Error(failures[0] || `${files.length} recordings`);
  /** @type {{file: string, pairs: RunPairs}[]} */
  const runs = [];
  for (const file of files) runs.push(await readRun(file));
  const compared = compareRuns(runs.map(({ pairs }) => pairs));
  return { name: page.name, runs, failures, ...compared, reasons: await reasonsOf(runs, compared.orderedBoth), actions: await reasonsOfActions(runs) };
}

/**
 * Prints why a pair that the rules order came the other way round, once for all its locations.
 * @param {import('./orders-tables.js').ToldReason} reason
 */
function printReason({ kind, text, count, words }) {
  console.log(`  ${kind}: ${text} (${count} locations)`);
  words.forEach((line) => console.log(`    ${line}`));
}

/** @param {OrdersLine} line */
function printPage(line) {
  console.log(`${line.name}: ${inWords(line)}`);
  for (const failure of line.failures) console.log(`  not recorded: ${failure}`);
  for (const kind of ['broken', 'undecided', 'lacking']) {
    const own = line.reasons.filter((one) => one.kind === kind);
    own.slice(0, MOST_PRINTED[kind]).forEach(printReason);
    if (own.length > MOST_PRINTED[kind]) console.log(`  ${kind}: ${own.length - MOST_PRINTED[kind]} more`);
  }
  for (const { text, count } of line.actions.reasons) console.log(`  broken, of actions: ${text} (${count} pairs)`);
}

/**
 * @param {MeasuredPage[]} pages
 * @param {How} how
 */
async function measurePages(pages, how) {
  /** @type {OrdersLine[]} */
  const all = [];
  for (const page of pages) {
    try {
      all.push(lineOf(await compareOrders(page, how), how.times));
      printPage(all[all.length - 1]);
    } catch (fault) {
      console.log(`${page.name}: left out: ${fault instanceof Error ? fault.message : fault}`);
    }
  }
  return all;
}

/**
 * Takes what a call says out of its words, except its pages.
 * @param {string[]} left
 * @param {OverCorpus|null} over
 */
function takeHow(left, over) {
  const flag = (/** @type {string} */ name) => left.includes(name) && left.splice(left.indexOf(name), 1).length > 0;
  const traces = left.includes('--traces') ? left.splice(left.indexOf('--traces'), 2)[1] : null;
  const [isPlain, isRead, keeps] = [flag('--plain'), flag('--read'), flag('--keep')];
  const { times, seed, into } = takeOptions(left);
  const folder = traces || (over ? path.join(over.folder, 'orders') : temporaryFolder('orders'));
  fs.mkdirSync(folder, { recursive: true });
  const shown = ['--times', String(times), '--seed', String(seed), ...isPlain ? ['--plain'] : [], ...isRead ? ['--read'] : [], ...keeps ? ['--keep'] : []];
  return { times, seed, folder, isPlain, isRead, goesOn: over !== null, words: keeps ? ['--keep'] : [], into, shown };
}

/**
 * The pages of the evaluation that are not done.
 * @param {OverCorpus} over
 * @param {string[]} only
 * @param {ReturnType<typeof takeHow>} how
 */
function measureOverCorpus(over, only, { times, folder, shown }) {
  /** @type {import('./measured-corpus.js').Measuring<OrdersLine>} */
  const measuring = { tool: __filename, file: 'orders.jsonl', words: [...shown, '--traces', folder], isEnough: (line) => line.times >= times, goesOn: true, inWords };
  return measureCorpus(over, only, measuring);
}

/** @param {string[]} words */
async function main(words) {
  const left = [...words];
  const over = takeCorpus(left);
  const how = takeHow(left, over);
  if (over?.only) {
    process.stdout.write(JSON.stringify(lineOf(await compareOrders(pageOfCorpus(over), how), how.times)));
    return 0;
  }
  const lines = over ? await measureOverCorpus(over, left, how) : await measurePages(pagesOf(left), how);
  const table = over ? sumTables(lines) : tableOf(HEAD, lines.map(rowOf));
  console.log(`\n${table}`);
  const call = `\`recorder/test/orders.js ${[...over ? ['--corpus', 'FOLDER'] : [], ...how.shown].join(' ')}\``;
  if (how.into) writeSection(how.into, over ? 'Orders on the pages of the evaluation' : 'Orders', `By ${call}${over ? commitsOf(lines) : ''}.\n\n${table}`);
  return lines.some(isBroken) ? 1 : 0;
}

module.exports = { compareOrders };

if (require.main === module) main(process.argv.slice(2)).then((status) => { process.exitCode = status; });
