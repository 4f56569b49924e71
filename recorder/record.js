'use strict';
// er_record URL OUT.trace: records a page. Writes OUT.trace and OUT.names.json. Also for er_page, er_replay, pages of a list and programs (index-task.js), which
// call recordInto with the name of their command, with which each line on standard error begins.

const { printError } = require('./common/output.js');
const { runCommand, printHelp } = require('./command.js');
const { STATUS } = require('./common/status.js');
const { stoppable } = require('./common/stoppable.js');
const { sleep } = require('./common/time.js');
const { mustTake } = require('./common/whole-file.js');
const { phase } = require('./phase.js');
const { Progress } = require('./progress.js');
const { AttachedRecorder } = require('./recording/attached-recorder.js');
const { writeFiles, namesFile } = require('./recording/files.js');
const { checkArguments, UsageFault } = require('./options/parse.js');
const { parseCommand } = require('./recording/options.js');
const { Recorder, RecordingFault } = require('./recording/recorder.js');

/** @typedef {import('./recording/options.js').RecordingOptions} RecordingOptions */

/**
 * How a recording ended: with `failed` nothing can be done with it; `incomplete` is the status of one that lacks something of what was to be recorded.
 * Both are 0 of a complete recording.
 * @typedef {{failed: number, incomplete: number}} Ending
 */

/** @typedef {'er_record'|'er_page'|'er_replay'} Command the command that the user called */
/** @typedef {{command: Command, recorder: Recorder|AttachedRecorder}} Call */

/**
 * What holds with and without a recording.
 * @param {Recorder|AttachedRecorder} recorder
 */
function printPage({ errors, loadTime }) {
  if (loadTime !== null) printError(`  load of the page: ${(loadTime / 1000).toFixed(2)} s`);
  errors.forEach((error) => printError(`  error: ${error}`));
}

/**
 * Prints what was recorded, and what was not.
 * @param {Call} call
 * @param {string[]} lines what the limits left out
 * @param {number} seconds
 */
function printRecorded({ command, recorder }, lines, seconds) {
  printError(`${command}: ${recorder.intake.actions} actions in ${seconds.toFixed(1)} s`);
  if (recorder instanceof Recorder && recorder.options.keepsGoing) recorder.acts.failures().forEach((line) => printError(`  not done: ${line}`));
  [...recorder.losses(), ...lines].forEach((line) => printError(`  not recorded: ${line}`));
  printPage(recorder);
}

/**
 * Prints what a recording lacks of what was to be recorded. Returns the status of that.
 * @param {Call} call
 */
function printIncomplete({ command, recorder }) {
  if (!(recorder instanceof Recorder)) return STATUS.ok;
  const failures = recorder.options.keepsGoing ? [] : recorder.acts.failures();
  failures.forEach((line) => printError(`${command}: not done: ${line}`));
  const cut = recorder.cut();
  if (cut) printError(`${command}: the recording is not complete: ${cut}`);
  if (failures.length) return STATUS.notDone;
  return cut ? STATUS.noPage : STATUS.ok;
}

/**
 * Records, until the end or a signal.
 * @param {Call} call
 * @returns {Promise<number>} the status of a recording that failed, or 0
 */
async function runRecorder({ command, recorder }) {
  try {
    await stoppable(() => recorder.interrupt(), () => recorder.record());
    return STATUS.ok;
  } catch (fault) {
    if (!(fault instanceof RecordingFault)) throw fault;
    process.stderr.write(process.stderr.isTTY ? '\r\x1b[K' : '');
    printError(`${command}: ${fault.message}`);
    return fault.status;
  }
}

/**
 * Writes the files of a recording. A signal meanwhile ends the command when they are written: there is nothing else of the recording yet.
 * @param {Recorder|AttachedRecorder} recorder
 * @param {RecordingOptions} options
 * @param {string} traceFile
 */
async function writeRecorded(recorder, options, traceFile) {
  let isStopped = false;
  const lines = await stoppable(() => { isStopped = true; }, () => phase('writing the trace', async () => {
    await recorder.readMaps();
    const left = writeFiles(recorder, options, traceFile);
    await sleep(1); // a signal that came while this process was busy is heard now
    return left;
  }));
  return { lines, isStopped };
}

/**
 * Records a page into a file. Fails with a WriteFault, before anything is recorded if the folder takes no files.
 * @param {Command} command
 * @param {string} given the page: an address, a file or a folder; with --attach HOST:PORT
 * @param {string} traceFile the names are written beside it
 * @param {RecordingOptions} options
 * @param {Recorder|AttachedRecorder} recorder that of `recorderFor` if `options.attach` can be set: the default has a browser of its own
 * @returns {Promise<Ending>}
 */
async function recordInto(command, given, traceFile, options, recorder = new Recorder(given, options)) {
  const call = { command, recorder };
  if (!options.isRaw) [traceFile, namesFile(traceFile)].forEach(mustTake);
  const openInWords = (/** @type {number} */ count) => `${count} open request${count === 1 ? '' : 's'}`;
  const progress = new Progress(process.stderr, () => `recording: ${recorder.intake.actions} actions so far, ${openInWords(recorder.openRequests())}`);
  let failed;
  try {
    failed = await runRecorder(call);
  } finally {
    progress.end();
  }
  if (options.isRaw) {
    printError(`${command}: nothing recorded, ${progress.seconds().toFixed(1)} s`);
    printPage(recorder);
    return { failed, incomplete: STATUS.ok };
  }
  const { lines, isStopped } = await writeRecorded(recorder, options, traceFile);
  printRecorded(call, lines, progress.seconds());
  if (isStopped) return { failed: STATUS.stopped, incomplete: STATUS.ok };
  return { failed, incomplete: failed ? STATUS.ok : printIncomplete(call) };
}

/**
 * The recorder of a page, or of what another program loads (`options.attach`). Refuses a flow over several pages.
 * @param {string} given as for `recordInto`
 * @param {RecordingOptions} options
 */
function recorderFor(given, options) {
  if (options.flowOfMany) throw new UsageFault(`the flow loads several pages, which er_page records: ${options.flowOfMany}`);
  return options.attach ? new AttachedRecorder(given, options, options.attach) : new Recorder(given, options);
}

/**
 * er_record. With `--attach` the other program loads the page, so only the file is given.
 * @param {string[]} args
 */
async function main(args) {
  const { options, positionals, isHelp } = parseCommand('er_record', args);
  if (isHelp) return printHelp('er_record');
  const { attach } = options;
  checkArguments(positionals, attach ? ['OUT.trace'] : ['URL', 'OUT.trace']);
  const given = attach ? `${attach.host}:${attach.port}` : positionals[0];
  const { failed, incomplete } = await recordInto('er_record', given, positionals[positionals.length - 1], options, recorderFor(given, options));
  return failed || incomplete;
}

module.exports = { recordInto, recorderFor };

if (require.main === module) runCommand('er_record', main);
