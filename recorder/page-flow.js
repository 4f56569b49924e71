'use strict';
// er_page --flow FILE, if the flow loads several pages: each page load is recorded, and one list is printed of all.

const fs = require('node:fs');
const path = require('node:path');
const { BrowserFault } = require('./browser/protocol.js');
const { CommandFault } = require('./command.js');
const { printError } = require('./common/output.js');
const { STATUS } = require('./common/status.js');
const { stoppable } = require('./common/stoppable.js');
const { makeFolder } = require('./common/whole-file.js');
const { FlowRecorder } = require('./driven/flow-recorder.js');
const { TraceFolder, tracesIn } = require('./driven/trace-folder.js');
const { Known } = require('./list/known.js');
const { reportLoads } = require('./loads.js');
const { Progress } = require('./progress.js');
const { endAsking } = require('./races/program.js');
const { besides } = require('./view.js');

/** @typedef {import('./recording/options.js').CommandOptions} CommandOptions */

/** The names of what an earlier call has written. */
const OF_FLOW = /^flow-\d{3,}-/;

/**
 * The folder of a flow, without the loads of an earlier call.
 * @param {string} file
 */
function folderOf(file) {
  const folder = `${path.basename(file).replace(/\.json$/, '')}.races`;
  makeFolder(folder);
  fs.readdirSync(folder).filter((name) => OF_FLOW.test(name)).forEach((name) => fs.rmSync(path.join(folder, name)));
  return folder;
}

/**
 * Records the loads. Returns the status of a flow that could not go on, or that lacks a step.
 * @param {FlowRecorder} recorder
 * @param {CommandOptions} options
 */
async function recordLoads(recorder, options) {
  const progress = new Progress(process.stderr, () => `step ${recorder.tried} of ${recorder.steps.length}`);
  let failed = STATUS.ok;
  try {
    await stoppable(() => recorder.interrupt(), () => recorder.record());
  } catch (fault) {
    if (!(fault instanceof BrowserFault)) throw fault;
    printError(`er_page: the browser failed: ${fault.message}`);
    failed = STATUS.failed;
  } finally {
    progress.end();
  }
  recorder.failures.forEach((line) => printError(`er_page: not done: ${line}`));
  const left = recorder.steps.length - recorder.tried;
  if (left) printError(`er_page: not done after that: ${left} step${left > 1 ? 's' : ''}`);
  if (recorder.isStopped) return STATUS.stopped;
  return failed || (recorder.failures.length && !options.keepsGoing ? STATUS.notDone : STATUS.ok);
}

/**
 * Prints what was recorded of each load, and what was not.
 * @param {string[]} files
 */
function printLoads(files) {
  files.forEach((file, k) => {
    /** @type {{load: {address: string, actions: number, lost: string[]}}} */
    const { load: { address, actions, lost } } = JSON.parse(fs.readFileSync(besides(file, '.names.json'), 'utf8'));
    printError(`er_page: load ${k + 1}, ${address}: ${actions} actions`);
    lost.forEach((line) => printError(`  not recorded: ${line}`));
  });
}

/**
 * Records a flow, and lists the races of all its loads. Returns the status. Called by page-races.js.
 * @param {string} given the address of its first page
 * @param {CommandOptions} options
 */
async function listFlow(given, options) {
  const { flowOfMany } = options;
  const file = String(flowOfMany);
  if (!/^https?:/i.test(given)) throw new CommandFault(`a flow that loads several pages starts at a web address: ${given}`, STATUS.usage);
  const known = Known.of(options);
  const folder = folderOf(file);
  const traces = new TraceFolder(path.join(folder, 'flow.log'), { pid: process.pid, words: 'er_page --flow', name: path.basename(file) });
  /** @type {import('./options/step.js').Step} */
  const first = { isEarly: false, kind: 'navigate', target: given, text: '', said: `navigate ${given}`, from: `the first page of ${path.basename(file)}` };
  const failed = await recordLoads(new FlowRecorder([first, ...options.actions.flatMap((one) => (one.kind === 'spot' ? [] : one))], options, traces, (text) => printError(`er_page: ${text}`)), options);
  const files = tracesIn(folder).filter((name) => OF_FLOW.test(path.basename(name)));
  if (!files.length) {
    printError('er_page: no page load was recorded');
    return failed === STATUS.notDone || !failed ? STATUS.noPage : failed;
  }
  printLoads(files);
  const status = await stoppable(() => endAsking(STATUS.stopped), () => reportLoads(files, known, options, { command: 'er_page', folder, page: folder }));
  return failed || status;
}

module.exports = { listFlow };
