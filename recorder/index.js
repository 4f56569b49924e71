'use strict';
// The interface for programs (API): record, attach, judge, list, replay. Each call runs in a process of its own, which an AbortSignal ends, and returns
// plain data with `format: 1`; members are only added to it. Each throws an EventRacerError.

const { fork } = require('node:child_process');
const path = require('node:path');
const { recordArguments, listArguments, replayArguments } = require('./index-options.js');

/** @typedef {import('./index-options.js').RecordOptions} RecordOptions */
/** @typedef {import('./index-options.js').ListOptions} ListOptions */
/** @typedef {import('./index-options.js').ReplayOptions} ReplayOptions */
/** @typedef {import('./index-types.js').Code} Code */
/** @typedef {import('./index-types.js').Recording} Recording */
/** @typedef {import('./index-types.js').Report} Report */
/** @typedef {import('./index-types.js').Reversal} Reversal */
/** @typedef {import('./index-types.js').Task} Task */
/** @typedef {{signal?: AbortSignal}} Abortable */

/** What a recorded page needs of Node (recorder/start). */
const FLAGS = ['--stack-size=4000', '--min-semi-space-size=64', '--max-semi-space-size=128', '--always-sparkplug', '--max-old-space-size=4096'];
const TASK = path.join(__dirname, 'index-task.js');
/** The process of an aborted call gets so many milliseconds to end its browser, or the suite that it runs and its recorders. */
const LONGEST_END = 15000;
const LONGEST_MESSAGES = 100000;
/** @type {{[status: number]: Code}} by the statuses of common/status.js */
const CODES = { 2: 'USAGE', 3: 'REFUSED', 4: 'NO_PAGE', 5: 'FAILED', 6: 'NOT_DONE', 10: 'NO_ANALYZER', 70: 'INTERNAL', 130: 'ABORTED' };

class EventRacerError extends Error {
  /**
   * @param {Code} code
   * @param {string} message
   * @param {{cause?: unknown}} [more]
   */
  constructor(code, message, more) {
    super(message, more);
    this.name = 'EventRacerError';
    this.code = code;
  }
}

/** @param {AbortSignal} signal */
const aborted = (signal) => new EventRacerError('ABORTED', 'the call was aborted', { cause: signal.reason });

/**
 * Why a call failed: of what its process printed, the lines with a command's name, without that and without how much was recorded.
 * @param {string} said
 */
function reasonOf(said) {
  const lines = said.split(/[\r\n]+/).flatMap((line) => /^er_\w+: (?!\d+ actions in )(.*)$/.exec(line)?.[1] || []);
  return lines.length ? lines.join('\n') : said.trim();
}

/**
 * What the process of a call answers.
 * @param {import('node:child_process').ChildProcess} child
 * @returns {Promise<{answer: import('./index-types.js').Answer|null, said: string}>}
 */
function answerOf(child) {
  /** @type {import('./index-types.js').Answer|null} */
  let answer = null;
  let said = '';
  child.stderr?.setEncoding('utf8').on('data', (piece) => { said = (said + piece).slice(-LONGEST_MESSAGES); });
  child.stdout?.resume();
  child.on('message', (message) => { answer = /** @type {import('./index-types.js').Answer} */ (message); });
  return new Promise((resolve, reject) => {
    child.on('error', (fault) => reject(new EventRacerError('INTERNAL', `the process of the call cannot be started: ${fault.message}`, { cause: fault })));
    child.on('close', () => resolve({ answer, said }));
  });
}

/**
 * Runs a call in a process of its own.
 * @param {Task} task
 * @param {AbortSignal} [signal]
 * @returns {Promise<unknown>}
 */
async function call(task, signal) {
  if (signal?.aborted) throw aborted(signal);
  const child = fork(TASK, [], { execArgv: FLAGS, stdio: ['ignore', 'pipe', 'pipe', 'ipc'] });
  /** @type {NodeJS.Timeout|undefined} */
  let limit;
  const stop = () => {
    child.kill('SIGTERM');
    limit = setTimeout(() => child.kill('SIGKILL'), LONGEST_END);
  };
  signal?.addEventListener('abort', stop, { once: true });
  try {
    child.send(task, () => {}); // a process that could not be started has an error of its own
    const { answer, said } = await answerOf(child);
    if (signal?.aborted) throw aborted(signal);
    if (!answer) throw new EventRacerError('INTERNAL', `the process of the call ended without an answer: ${said.trim()}`);
    if ('result' in answer) return answer.result;
    throw new EventRacerError(CODES[answer.status] || 'INTERNAL', answer.message || reasonOf(said));
  } finally {
    clearTimeout(limit);
    signal?.removeEventListener('abort', stop);
  }
}

/** @param {string} message @returns {never} */
function refuse(message) {
  throw new EventRacerError('USAGE', message);
}

/**
 * The signal, and the other options as arguments of a command. Wrong values are the caller's fault.
 * @template {object} T
 * @param {(options: T) => string[]} write
 * @param {T & Abortable} options
 */
function checked(write, options) {
  if (typeof options !== 'object' || !options) return refuse('the options are missing');
  const { signal, ...others } = options;
  try {
    return { signal, args: write(/** @type {T} */ (/** @type {unknown} */ (others))) };
  } catch (fault) {
    return refuse(fault instanceof Error ? fault.message : String(fault));
  }
}

/** @param {unknown} value @param {string} name of the argument */
function checkText(value, name) {
  if (typeof value !== 'string' || !value) refuse(`${name} is no text`);
}

/**
 * Records the load of a page, a web address, a file or a folder, into `options.trace` and the names beside it.
 * @param {string} url
 * @param {RecordOptions & Abortable} options
 * @returns {Promise<Recording>}
 */
async function record(url, options) {
  checkText(url, 'url');
  const { signal, args } = checked(recordArguments, options);
  return /** @type {Recording} */ (await call({ name: 'record', url, trace: options.trace, args }, signal));
}

/**
 * Records the page that the first tab of a running Chromium loads next.
 * @param {string} endpoint HOST:PORT of this machine
 * @param {RecordOptions & Abortable} options
 * @returns {Promise<Recording>}
 */
async function attach(endpoint, options) {
  checkText(endpoint, 'endpoint');
  const { signal, args } = checked(recordArguments, options);
  return /** @type {Recording} */ (await call({ name: 'attach', endpoint, trace: options.trace, args }, signal));
}

/**
 * Analyzes a trace, and writes its report and view.
 * @param {string} trace
 * @param {Abortable} options
 * @returns {Promise<Report>}
 */
async function judge(trace, options = {}) {
  return list([trace], options);
}

/**
 * One list of several traces; writes the report and the view of each.
 * @param {string[]} traces files, or folders of er_browser: all traces in a folder, once its recorders have written them
 * @param {ListOptions & Abortable} options
 * @returns {Promise<Report>}
 */
async function list(traces, options = {}) {
  if (!Array.isArray(traces)) refuse('traces is no list of files and folders');
  if (!traces.length) refuse('there is no trace');
  traces.forEach((trace) => checkText(trace, 'trace'));
  const { signal, args } = checked(listArguments, options);
  return /** @type {Report} */ (await call({ name: 'list', traces, args }, signal));
}

/**
 * Runs the page of a trace with a race in the other order.
 * @param {string} trace that `record` or er_browser has written
 * @param {string|number} problem the stable name of a problem or a race, or the number of a race in the report
 * @param {ReplayOptions & Abortable} options
 * @returns {Promise<Reversal>}
 */
async function replay(trace, problem, options = {}) {
  checkText(trace, 'trace');
  if (typeof problem !== 'number') checkText(problem, 'problem');
  const { signal, args } = checked(replayArguments, options);
  return /** @type {Reversal} */ (await call({ name: 'replay', trace, problem, isOfSuite: !!options.command, args }, signal));
}

module.exports = { record, attach, judge, list, replay, EventRacerError };
