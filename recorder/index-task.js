'use strict';
// One call of the interface for programs, in a process of its own: gets a task as a message, and answers it with a message. The child process of the API.

const fs = require('node:fs');
const { statusOf } = require('./command.js');
const { stoppable } = require('./common/stoppable.js');
const { STATUS } = require('./common/status.js');
const { waitForWriters, tracesIn } = require('./driven/trace-folder.js');
const { Known } = require('./list/known.js');
const { plainListing } = require('./list/json.js');
const { judgeLoads, listingOf, writeIndex, writeLists } = require('./loads.js');
const { answersAtOnce, askAhead, endAsking, programState } = require('./races/program.js');
const { recordInto, recorderFor } = require('./record.js');
const { namesFile } = require('./recording/files.js');
const { parseCommand, UsageFault } = require('./recording/options.js');
const { replayTrace } = require('./replay-race.js');
const { SuiteReplays } = require('./suite-replays.js');
const { besides, viewTrace } = require('./view.js');

/** @typedef {import('./recording/options.js').CommandOptions} CommandOptions */
/** @typedef {import('./index-types.js').Answer} Answer */
/** @typedef {import('./index-types.js').AttachTask} AttachTask */
/** @typedef {import('./index-types.js').ListTask} ListTask */
/** @typedef {import('./index-types.js').Recording} Recording */
/** @typedef {import('./index-types.js').RecordTask} RecordTask */
/** @typedef {import('./index-types.js').ReplayTask} ReplayTask */
/** @typedef {import('./index-types.js').Report} Report */
/** @typedef {import('./index-types.js').Reversal} Reversal */
/** @typedef {import('./index-types.js').Task} Task */

/** A call that failed with a status; standard error has the reason. */
class TaskFault extends Error {
  /** @param {number} status @param {string} message */
  constructor(status, message = '') {
    super(message);
    this.status = status;
  }
}

/**
 * The task of `record()` and of `attach()`.
 * @param {RecordTask|AttachTask} task
 * @returns {Promise<Recording>}
 */
async function record({ trace, args, ...task }) {
  const words = task.name === 'attach' ? [`--attach=${task.endpoint}`, '--', task.endpoint] : ['--', task.url];
  const { options, positionals: [given] } = parseCommand('er_record', [...args, ...words]);
  const recorder = recorderFor(given, options);
  const { failed, incomplete } = await recordInto('er_record', given, trace, options, recorder);
  if (failed) throw new TaskFault(failed);
  const { intake, loadTime, errors } = recorder;
  const why = incomplete === STATUS.ok ? null : incomplete === STATUS.notDone ? 'NOT_DONE' : 'NO_PAGE';
  return { format: 1, page: given, trace, names: namesFile(trace), isComplete: !why, why, actions: intake.actions, loadTime, errors, lost: recorder.losses() };
}

/**
 * The traces that are named: files, and all of a folder.
 * @param {string[]} given
 */
async function tracesOf(given) {
  const traces = await Promise.all(given.map(async (one) => {
    const facts = fs.statSync(one, { throwIfNoEntry: false });
    if (!facts) throw new TaskFault(STATUS.noPage, `there is no file ${one}`);
    if (!facts.isDirectory()) return [one];
    await waitForWriters(one);
    return tracesIn(one);
  }));
  if (!traces.flat().length) throw new TaskFault(STATUS.noPage, `there is no trace in ${given.join(', ')}`);
  if (programState() === 'missing') throw new TaskFault(STATUS.noProgram);
  return traces.flat();
}

/**
 * The task of `list()`: analyzes traces, and writes the outputs that are asked for.
 * @param {ListTask} task
 * @returns {Promise<Report>}
 */
async function list({ traces: given, args }) {
  const { options } = parseCommand('er_suite', args);
  const traces = await tracesOf(given);
  const known = Known.of(options);
  const { judged, failed } = await stoppable(() => endAsking(STATUS.stopped), () => judgeLoads(traces, 'er_page', known, { isJson: true }));
  if (failed) throw new TaskFault(failed);
  const listing = listingOf(judged, known, options, '');
  const isFailing = listing.failing().length > 0;
  const status = isFailing ? STATUS.race : STATUS.ok;
  writeLists(listing, judged, options, { page: '', status });
  if (options.html) writeIndex(listing, judged, '', options.html);
  const { problems, notSeen, leftOut, notComplete, unmarked, ofLibraries } = plainListing(listing, { page: '', status, files: traces, folder: null });
  return { format: 1, isFailing, traces, views: traces.map((trace) => besides(trace, '.html')), problems, notSeen, leftOut, notComplete, unmarked, ofLibraries };
}

/**
 * The problem that is meant: its name, and the number of its race.
 * @param {string} trace
 * @param {string|number} problem
 */
async function problemOf(trace, problem) {
  await askAhead([trace]);
  const { view, status } = await viewTrace(trace, 'er_page');
  if (!view) throw new TaskFault(status);
  const { list: problems, ofRaces } = view.problems;
  const own = problems.find(({ name }) => name === problem);
  const race = typeof problem === 'number' ? problem - 1 : own?.first ?? ofRaces.findIndex(({ name }) => name === problem);
  if (!ofRaces[race]) throw new UsageFault(`there is no ${typeof problem === 'number' ? 'race' : 'problem'} ${problem} in ${trace}`);
  return { name: ofRaces[race].problem, race: race + 1 };
}

/**
 * The task `replay` of the interface for programs: one problem of a trace, of a page or of the suite that recorded it.
 * @param {ReplayTask} task
 * @returns {Promise<Reversal>}
 */
async function replay({ trace, problem, args, isOfSuite }) {
  const { options } = parseCommand(isOfSuite ? 'er_suite' : 'er_replay', args);
  await tracesOf([trace]);
  if (!answersAtOnce()) throw new TaskFault(STATUS.noProgram, 'a replay needs the built analyzer, or a Rust compiler: run ./er_cli --build');
  const { name, race } = await problemOf(trace, problem);
  if (isOfSuite) return replayInSuite(trace, name, options);
  return replayPage(trace, race, options, args.some((word) => word.startsWith('--time=')));
}

/**
 * Replays a race of a page, as er_replay does, and returns what it has written of it.
 * @param {string} trace
 * @param {number} race
 * @param {CommandOptions} options
 * @param {boolean} hasTime
 * @returns {Promise<Reversal>}
 */
async function replayPage(trace, race, options, hasTime) {
  const status = await replayTrace(trace, { ...options, races: [race] }, hasTime);
  const folder = `${besides(trace, '')}.replay`;
  const file = `${folder}/page.replay.json`;
  if (status !== STATUS.ok && status !== STATUS.race) throw new TaskFault(status);
  /** @type {import('./list/types').Verdict|undefined} */
  const found = fs.existsSync(file) ? JSON.parse(fs.readFileSync(file, 'utf8')).races[0] : undefined;
  return { format: 1, isFound: !!found, race, verdict: found?.verdict || null, effect: found?.effect || null, words: found?.words || '', folder };
}

/**
 * The task of `replay()` for a page load of a suite: runs the suite's command again.
 * @param {string} trace
 * @param {string} problem
 * @param {CommandOptions} options
 * @returns {Promise<Reversal>}
 */
async function replayInSuite(trace, problem, options) {
  const { judged, failed } = await judgeLoads([trace], 'er_suite', null, { isJson: true });
  if (failed) throw new TaskFault(failed);
  const folder = `${besides(trace, '')}.replay`;
  const replays = new SuiteReplays(listingOf(judged, null, options, ''), judged, { ...options, wanted: [problem] }, folder);
  const status = await stoppable(() => replays.stop(), () => replays.run());
  if (status) throw new TaskFault(status);
  const [{ race, verdict, effect = null, words, suiteStatus, isFound }] = replays.outcomes;
  return { format: 1, isFound, race, verdict, effect, words, folder: replays.folder, ...suiteStatus === undefined ? {} : { suiteStatus } };
}

/**
 * The answer to a task: its result, or the status and the message of its error.
 * @param {Task} task
 * @returns {Promise<Answer>}
 */
async function answerOf(task) {
  try {
    const result = await (task.name === 'list' ? list(task) : task.name === 'replay' ? replay(task) : record(task));
    return { result };
  } catch (fault) {
    const message = fault instanceof Error ? fault.message : String(fault);
    if (fault instanceof TaskFault) return { status: fault.status, message };
    const status = statusOf(fault);
    return status === null ? { status: STATUS.internal, message: fault instanceof Error ? fault.stack || message : message } : { status, message };
  }
}

process.once('message', async (/** @type {Task} */ task) => {
  const answer = await answerOf(task);
  process.send?.(answer, () => process.exit());
});
process.on('disconnect', () => process.exit(STATUS.stopped)); // the caller has gone
