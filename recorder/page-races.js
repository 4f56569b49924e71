'use strict';
// er_page URL: records a page, queries the analyzer, and writes trace, names, report and view into a folder of the page's name.

const fs = require('node:fs');
const path = require('node:path');
const { print, printError } = require('./common/output.js');
const { resolveAddress } = require('./browser/folder.js');
const { runCommand, printHelp } = require('./command.js');
const { redacted } = require('./common/secrets.js');
const { STATUS } = require('./common/status.js');
const { stoppable } = require('./common/stoppable.js');
const { makeFolder } = require('./common/whole-file.js');
const { judgeAndView } = require('./judged.js');
const { Known } = require('./list/known.js');
const { Listing } = require('./list/listing.js');
const { writeOutputs, tellLines, totalsOf } = require('./list/outputs.js');
const { checkArguments, UsageFault } = require('./options/parse.js');
const { parseCommand } = require('./recording/options.js');
const { phase } = require('./phase.js');
const { Recorder } = require('./recording/recorder.js');
const { listPages } = require('./many-pages.js');
const { listFlow } = require('./page-flow.js');
const { recordInto } = require('./record.js');
const { mayReplayByItself, whyNotByItself } = require('./replay-by-itself.js');
const { canReplay, replayRaces } = require('./replay-command.js');
const { withEnd, chance } = require('./replay/replay.js');
const { askAhead, endAsking, programState } = require('./races/program.js');
const { writePage } = require('./view.js');

/** @typedef {import('./recording/options.js').CommandOptions} CommandOptions */
/** @typedef {import('./view.js').View} View */
/** @typedef {{given: string, folder: string, options: CommandOptions, mayReplay: boolean}} Call `mayReplay`: the races can be run again after the recording */

/**
 * The folder for a page: by its name, in the current one.
 * @param {string} given
 */
function folderFor(given) {
  const words = given.replace(/[?#].*$/, '').replace(/^\w+:\/\//, '').replace(/\/index\.html?$/, '').replace(/\.x?html?$/, '').split('/');
  const last = words.filter((word) => word && word !== '.' && word !== '..').pop() || 'page';
  return `${last.replace(/[^\w.-]+/g, '-')}.races`;
}

/**
 * The trace of a run: that of the first one is in the folder, those of the others are in `runs`.
 * @param {string} folder
 * @param {number} k
 */
function fileOfRun(folder, k) {
  if (k === 0) return path.join(folder, 'page.trace');
  fs.mkdirSync(path.join(folder, 'runs'), { recursive: true });
  return path.join(folder, 'runs', `${k + 1}.trace`);
}

/** @param {Call} call */
const servedFolder = ({ given, options }) => resolveAddress(given, options.root).folder;

/**
 * Records a page as often as requested. Returns the traces of the runs before one that failed, the status of that one, and that of incomplete runs.
 * @param {Call} call
 * @param {Recorder} first
 */
async function recordRuns({ given, folder, options }, first) {
  const files = [];
  let incomplete = STATUS.ok;
  for (let k = 0; k < options.runs; k++) {
    const own = { ...options, seed: options.seed + k, salt: k };
    const file = fileOfRun(folder, k);
    const ending = await recordInto('er_page', given, file, own, k === 0 ? first : new Recorder(given, own));
    if (ending.failed) return { files, failed: ending.failed, incomplete };
    incomplete = Math.max(incomplete, ending.incomplete);
    files.push(file);
  }
  return { files, failed: STATUS.ok, incomplete };
}

/**
 * Has the runs analyzed, and writes their views. Returns the views before a run that was not analyzed, and the status of that one.
 * @param {string[]} files
 * @param {Known|null} known
 * @param {boolean} isReplayed
 */
async function judgeRuns(files, known, isReplayed) {
  await askAhead(files);
  /** @type {View[]} */
  const runs = [];
  for (const file of files) {
    const { status, view } = await judgeAndView(file, 'er_page', { known, isLinkedLater: isReplayed });
    if (!view) return { runs, failed: status };
    runs.push(view);
  }
  return { runs, failed: STATUS.ok };
}

/**
 * Removes what an earlier call has written into the folder and this one might not.
 * @param {string} folder
 */
function prepareFolder(folder) {
  makeFolder(folder);
  fs.rmSync(path.join(folder, 'runs'), { recursive: true, force: true });
  fs.rmSync(path.join(folder, 'page.replay.json'), { force: true });
}

/**
 * Records the page, prints the list of its races, and replays what is to be replayed. Returns the exit status.
 * @param {Call} call
 */
async function pageRaces(call) {
  const { given, folder, options } = call;
  const known = Known.of(options);
  prepareFolder(folder);
  const first = new Recorder(given, call.mayReplay ? withEnd({ ...options, keepsBrowser: true, fixed: chance(options) }) : options);
  try {
    const recorded = await recordRuns(call, first);
    const judging = () => phase('analyzing the trace and writing the view', () => judgeRuns(recorded.files, known, call.mayReplay));
    const judged = await stoppable(() => endAsking(STATUS.stopped), judging); // a browser may still run
    const { runs } = judged;
    const failed = judged.failed || recorded.failed;
    if (!runs.length) return failed;
    if (failed) printError(`er_page: run ${runs.length + 1} of ${options.runs} failed; the list covers only the runs before it`);
    const status = await listRuns(call, runs, known, first, recorded.incomplete);
    return failed || status;
  } finally {
    if (call.mayReplay) await first.closeKeptBrowser();
  }
}

/**
 * The status of a list. A step that could not be done makes another recording than the one that was meant; a recording that was cut might lack races.
 * @param {boolean} isFailing
 * @param {number} incomplete
 */
function statusOfList(isFailing, incomplete) {
  if (incomplete === STATUS.notDone || !isFailing) return incomplete;
  return STATUS.race;
}

/**
 * Whether races are run again: those that are requested, else the new ones if no server notices.
 * @param {Call} call
 * @param {Listing} listing
 * @param {Recorder} recorder
 */
function isToReplay({ options, mayReplay }, listing, recorder) {
  if (!mayReplay || options.isReplayed) return options.isReplayed && listing.problems.length > 0;
  if (!listing.told().length) return false;
  const why = whyNotByItself(recorder);
  if (why) printError(`er_page: ${why}`);
  return !why;
}

/**
 * What the user did in a recording, and how often the page failed, in words.
 * @param {Recorder} recorder
 */
function doneIn({ acts, errors: { length } }) {
  return `${acts.doneInWords()}${length ? `; ${length} uncaught error${length > 1 ? 's' : ''}` : ''}`;
}

/**
 * Prints the list of all runs, and replays its races if requested. Returns the status: 0 if there is no race that is not known.
 * @param {Call} call
 * @param {View[]} runs
 * @param {Known|null} known
 * @param {Recorder} recorder of the first run
 * @param {number} incomplete
 */
async function listRuns(call, runs, known, recorder, incomplete) {
  const { given, folder, options } = call;
  const listing = await phase('listing the races', () => new Listing(runs.map(({ problems }) => problems), known, { ...options, folder: servedFolder(call) }));
  const status = statusOfList(listing.failing().length > 0, incomplete);
  const files = runs.map((run, k) => fileOfRun(folder, k));
  const [{ report, model, linked }] = runs;
  const hasReplays = isToReplay(call, listing, recorder);
  const replayed = hasReplays ? await replayRaces(recorder, { ...options, name: 'er_page' }, files[0], { report, model, linked, listing }) : STATUS.ok;
  if (call.mayReplay && !hasReplays) writePage(files[0], await linked);
  tellLines(listing, options, !incomplete, { done: doneIn(recorder), unserved: recorder.responses?.unserved });
  writeOutputs(listing, options, { page: redacted(given), status, files, folder: servedFolder(call) });
  const others = [...hasReplays ? ['page.replay.json'] : [], ...runs.length > 1 ? [`runs/2 to runs/${runs.length}`] : []];
  const printLine = options.isJson ? printError : print;
  printLine(`${folder}: ${['page.trace', 'page.names.json', 'page.report', 'page.html', ...others].join(', ')}`);
  printLine(`${totalsOf(listing)}; the view is ${path.join(folder, 'page.html')}`);
  return replayed || status;
}

/**
 * Checks the arguments, and records one page, the pages of a list, or a flow.
 * @param {string[]} args
 */
async function main(args) {
  const { options, positionals, isHelp } = parseCommand('er_page', args);
  if (isHelp) return printHelp('er_page');
  const isOfMany = !!(options.list || options.sitemap);
  checkArguments(positionals, isOfMany ? [] : ['URL']);
  if (!isOfMany && (options.junit || options.html)) throw new UsageFault('--junit and --html require --list FILE or --sitemap URL');
  if (programState() === 'missing' || (options.isReplayed && !canReplay('er_page'))) return STATUS.noProgram;
  if (isOfMany) return listPages(options);
  const [given] = positionals;
  if (options.flowOfMany) return listFlow(given, options);
  return pageRaces({ given, folder: folderFor(given), options, mayReplay: options.isReplayed || mayReplayByItself(options) });
}

runCommand('er_page', main);
