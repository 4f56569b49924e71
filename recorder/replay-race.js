'use strict';
// er_replay OUT.trace --race K: records the page of a trace once more, finds the race again by its stable name, and runs the page in the other order.

const fs = require('node:fs');
const path = require('node:path');
const { print } = require('./common/output.js');
const { runCommand, printHelp, CommandFault } = require('./command.js');
const { STATUS } = require('./common/status.js');
const { stoppable } = require('./common/stoppable.js');
const { writeWhole, makeFolder } = require('./common/whole-file.js');
const { LastingNames } = require('./list/lasting.js');
const { Listing } = require('./list/listing.js');
const { runProgram } = require('./races/program.js');
const { judgeWithin } = require('./races/within-limits.js');
const { checkArguments, UsageFault } = require('./options/parse.js');
const { parseCommand } = require('./recording/options.js');
const { readOrigin } = require('./recording/origin.js');
const { recordInto } = require('./record.js');
const { Recorder } = require('./recording/recorder.js');
const { canReplay, replayRaces } = require('./replay-command.js');
const { withEnd, chance } = require('./replay/replay.js');
const { viewTrace, besides } = require('./view.js');

/** @typedef {import('./recording/options.js').CommandOptions} CommandOptions */
/** @typedef {import('./view.js').View} View */

/**
 * A race that is searched for: its number in the earlier report, its own stable name and its problem's, and its words.
 * @typedef {{number: number, name: string, problem: string, words: string, ownOrder: number}} Wanted
 */

/** @typedef {Wanted & {at: number}} Found with its index in the new report, or -1 */

/** A race that does not come by chance might come in a further recording. */
const MOST_RECORDINGS = 3;

/**
 * The races that are requested.
 * @param {string} trace
 * @param {number[]} numbers
 * @param {ReturnType<typeof readOrigin>} origin
 * @returns {Promise<Wanted[]>}
 */
async function racesOf(trace, numbers, origin) {
  const { report, fault, leftOut } = await judgeWithin(trace);
  if (!report || report.refused) throw new CommandFault(`the analyzer gave no report of ${trace}: ${fault || report?.refused?.cause}`, STATUS.refused);
  const wrong = numbers.find((number) => !report.races[number - 1]);
  if (wrong !== undefined) throw new CommandFault(`there is no race ${wrong} in ${trace}: it has ${report.races.length}`, STATUS.usage);
  const { text, names } = leftOut.length ? readOrigin(trace) : origin; // what is left out is no longer in the file
  const lasting = new LastingNames(text, names);
  return numbers.map((number) => ({ number, ...lasting.nameRace(report.races[number - 1]), words: lasting.words.race(report.races[number - 1]) }));
}

/**
 * The index of a race in another recording: by its name, else another race of its problem; -1 if neither came.
 * @param {Wanted} wanted
 * @param {View['problems']} problems
 */
function findAgain({ name, problem }, { ofRaces }) {
  const same = ofRaces.findIndex((race) => race.name === name);
  return same >= 0 ? same : ofRaces.findIndex((race) => race.problem === problem);
}

/**
 * Records the page until all races are found again, or as often as is tried. All recordings are in one browser.
 * @param {string} address
 * @param {CommandOptions} options
 * @param {string} traceFile of the new recording
 * @param {Wanted[]} wanted
 * @param {Recorder[]} recorders gets each recorder, whose browser stays
 * @returns {Promise<{status: number, again?: {view: View, recorder: Recorder, found: Found[], recordings: number}}>}
 */
async function recordAgain(address, options, traceFile, wanted, recorders) {
  for (let k = 1; ; k++) {
    const browser = recorders[0]?.runningBrowser();
    const recorder = new Recorder(address, withEnd({ ...options, keepsBrowser: true, ...browser ? { browser } : {}, fixed: chance(options) }));
    recorders.push(recorder);
    const { failed, incomplete } = await recordInto('er_replay', address, traceFile, options, recorder);
    if (failed) return { status: failed };
    const { status, view } = await stoppable(() => process.exit(STATUS.stopped), async () => {
      writeWhole(besides(traceFile, '.report'), (await runProgram([], traceFile)).output);
      return viewTrace(traceFile, 'er_replay');
    });
    if (!view) return { status };
    const found = wanted.map((race) => ({ ...race, at: findAgain(race, view.problems) }));
    if (k === MOST_RECORDINGS || found.every(({ at }) => at >= 0)) return { status: incomplete, again: { view, recorder, found, recordings: k } };
  }
}

/**
 * Prints which race of the new recording each is.
 * @param {{found: Found[], view: View, recordings: number}} again
 * @param {string} trace the file of the earlier recording, as it was given
 */
function printFound({ found, view, recordings }, trace) {
  for (const { number, name, at, words, ownOrder } of found) {
    print(`Race ${number} of ${trace}: ${words}`);
    const race = view.problems.ofRaces[at];
    if (!race) print(`  not found again: it did not come in ${recordings} recordings of the page`);
    else if (race.name !== name) print(`  found again as another race of the same two places: race ${at + 1} of the new recording`);
    else if (race.ownOrder !== ownOrder) print(`  found again, as race ${at + 1} of the new recording, where the two came in the other order`);
    else print(`  found again: race ${at + 1} of the new recording`);
  }
}

/**
 * The options of the earlier recording, with those of this call. What servers require is not saved with a recording.
 * @param {CommandOptions} recorded
 * @param {CommandOptions} given
 * @param {boolean} hasTime
 */
function optionsAgain(recorded, given, hasTime) {
  const { headers, credentials, cookies, storageState, userDataDir, ignoresCertificateErrors, mayChange } = given;
  const shape = { viewport: given.viewport || recorded.viewport, userAgent: given.userAgent || recorded.userAgent };
  const own = { isLive: given.isLive || recorded.isLive, time: hasTime ? given.time : recorded.time, most: Infinity, isJson: false };
  return { ...recorded, headers, credentials, cookies, storageState, userDataDir, ignoresCertificateErrors, mayChange, ...shape, ...own };
}

/**
 * Records the page of a trace once more, finds the wanted races in the new recording, and replays them. Returns the exit status. Called by index-task.js.
 * @param {string} trace
 * @param {CommandOptions} given
 * @param {boolean} hasTime whether --time is among the arguments
 */
async function replayTrace(trace, given, hasTime) {
  const origin = readOrigin(trace);
  const wanted = await racesOf(trace, [...new Set(given.races)], origin);
  const folder = `${besides(trace, '')}.replay`;
  makeFolder(folder);
  const traceFile = path.join(folder, 'page.trace');
  fs.rmSync(besides(traceFile, '.replay.json'), { force: true });
  const options = optionsAgain(origin.options, given, hasTime);
  /** @type {Recorder[]} */
  const recorders = [];
  try {
    const { status, again } = await recordAgain(origin.given, options, traceFile, wanted, recorders);
    if (!again) return status;
    printFound(again, trace);
    const { view: { report, model, linked, problems }, recorder, found } = again;
    const there = found.filter(({ at }) => at >= 0);
    const judged = { report, model, linked, listing: new Listing([problems], null) };
    const races = there.map(({ at }) => at + 1);
    const ended = races.length ? await replayRaces(recorder, { ...options, name: 'er_replay', races }, traceFile, judged) : STATUS.ok;
    return ended || status || (there.length < found.length ? STATUS.race : STATUS.ok);
  } finally {
    await recorders[0]?.closeKeptBrowser();
  }
}

/**
 * er_replay. Without `--time`, the limit is that of the recorded run.
 * @param {string[]} args
 */
async function main(args) {
  const { options, positionals, isHelp } = parseCommand('er_replay', args);
  if (isHelp) return printHelp('er_replay');
  checkArguments(positionals, ['OUT.trace']);
  if (!options.races.length) throw new UsageFault('--race K is missing: the number of a race of OUT.trace');
  const hasTime = args.some((arg) => /^--time(=|$)/.test(arg));
  return canReplay('er_replay') ? replayTrace(positionals[0], options, hasTime) : STATUS.noProgram;
}

module.exports = { replayTrace };

if (require.main === module) runCommand('er_replay', main);
