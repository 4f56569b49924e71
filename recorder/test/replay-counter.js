'use strict';
// Counts what the replays of one er_page cost. replay-counts.js loads it into the command: node --require; at the end it writes its counts to the file
// ER_COUNTS.

const fs = require('node:fs');
const { Chromium } = require('../browser/chromium.js');
const { Responses } = require('../browser/responses.js');
const { FolderAnswers } = require('../browser/responses/folder-answers.js');
const { AnswersOfRun } = require('../browser/responses/kept-answers.js');
const { isResponse } = require('../browser/responses/paused.js');
const program = require('../races/program.js');
const { Acts } = require('../recording/acts.js');
const { Recorder } = require('../recording/recorder.js');
const { Rest } = require('../recording/rest.js');
const endState = require('../replay/found/end-state.js');

/** @typedef {{[name: string]: number}} Numbers */
/** @typedef {(this: any, ...args: any[]) => any} Method */

/** Ticks of a processor's time in a second, as /proc has it. */
const TICKS = 100;

const counts = {
  runs: 0, loads: 0, queries: 0, network: 0, folder: 0, memory: 0, browser: 0, node: 0, analyzer: 0, wall: 0,
  seconds: /** @type {Numbers} */ ({}),
};
/** What was used when the first run began. */
const before = { browser: 0, analyzer: 0, node: 0, time: 0 };
let browserProcess = 0;

/**
 * The numbers of a process in /proc, or null if it has gone.
 * @param {string|number} pid
 */
function statOf(pid) {
  try {
    const fields = fs.readFileSync(`/proc/${pid}/stat`, 'utf8').replace(/^.*\) /, '').split(' ').map(Number);
    return { parent: fields[1], own: (fields[11] + fields[12]) / TICKS, ofDead: (fields[13] + fields[14]) / TICKS };
  } catch {
    return null;
  }
}

/** The processor seconds of the browser and of all its processes, with those that have ended. */
function secondsOfBrowser() {
  const stats = new Map(fs.readdirSync('/proc').filter((name) => /^\d+$/.test(name)).map((pid) => [Number(pid), statOf(pid)]));
  const isOfBrowser = (/** @type {number} */ pid) => {
    for (let one = pid; one > 1; one = stats.get(one)?.parent || 0) if (one === browserProcess) return true;
    return false;
  };
  return [...stats].reduce((sum, [pid, stat]) => (stat && isOfBrowser(pid) ? sum + stat.own + stat.ofDead : sum), 0);
}

const secondsOfNode = () => (process.cpuUsage().user + process.cpuUsage().system) / 1e6;

function begin() {
  Object.assign(before, { browser: secondsOfBrowser(), analyzer: statOf('self')?.ofDead || 0, node: secondsOfNode(), time: Date.now() });
}

/**
 * Puts a function around a method.
 * @param {any} prototype
 * @param {string} name
 * @param {(native: Method) => Method} make
 */
function wrap(prototype, name, make) {
  prototype[name] = make(prototype[name]);
}

/**
 * Adds the time of a method to a name, less what is inside of it that has another name.
 * @param {any} owner
 * @param {string} method
 * @param {string} name
 * @param {(self: any) => any} runOf the run that a method belongs to
 */
function time(owner, method, name, runOf) {
  wrap(owner, method, (native) => async function timed(...args) {
    const run = runOf(this);
    const isNested = name === 'quiet after acts' && run?.timer?.isWait;
    if (!run?.options.sources || isNested) return native.apply(this, args); // the recorded run
    const timer = { inside: 0, isWait: /^(quiet|until)/.test(name) };
    const outer = run.timer;
    run.timer = timer;
    const start = Date.now();
    try {
      return await native.apply(this, args);
    } finally {
      const seconds = (Date.now() - start) / 1000;
      run.timer = outer;
      if (outer) outer.inside += seconds;
      counts.seconds[name] = (counts.seconds[name] || 0) + seconds - timer.inside;
    }
  });
}

const isOfRest = (/** @type {{session: any}} */ { session }) => session;
const itself = (/** @type {any} */ recorder) => recorder;
time(Rest.prototype, 'waitBeforeActs', 'quiet before acts', isOfRest);
time(Rest.prototype, 'waitForEnd', 'quiet at the end', isOfRest);
time(Rest.prototype, 'waitForRelease', 'until release', isOfRest);
time(Rest.prototype, 'waitForLoad', 'until load', isOfRest);
time(Rest.prototype, 'waitForQuiet', 'quiet after acts', isOfRest);
time(Acts.prototype, 'doLate', 'late acts', isOfRest);
time(Recorder.prototype, 'openBrowser', 'tab', itself);
time(Recorder.prototype, 'prepareTab', 'prepare', itself);
time(Recorder.prototype, 'load', 'first answer and early acts', itself);
time(Recorder.prototype, 'useAndWait', 'other', itself);
time(Recorder.prototype, 'finish', 'last lines', itself);
time(Recorder.prototype, 'record', 'rest', itself);

wrap(Recorder.prototype, 'load', (native) => function load() { counts.loads++; return native.call(this); });
wrap(Chromium.prototype, 'start', (native) => function start(...args) {
  native.apply(this, args);
  browserProcess = this.process.pid;
});
wrap(Responses.prototype, 'letPass', (native) => function letPass(event) {
  if (before.time && !isResponse(event) && /^https?:/.test(event.request.url) && !this.folder?.has(event.request.url)) counts.network++;
  return native.call(this, event);
});
wrap(FolderAnswers.prototype, 'read', (native) => function read(event) {
  if (before.time) counts.folder++;
  return native.call(this, event);
});
wrap(AnswersOfRun.prototype, 'take', (native) => function take(event) {
  const answer = native.call(this, event);
  if (answer) counts.memory++;
  return answer;
});
wrap(program, 'runProgram', (native) => function runProgram(...args) {
  if (before.time) counts.queries++;
  return native(...args);
});
wrap(endState, 'takeEnd', (native) => async function takeEnd(recorder) {
  const { timer, options: { sources } } = recorder;
  const start = Date.now();
  const end = await native(recorder);
  const seconds = (Date.now() - start) / 1000;
  if (sources) counts.seconds['state and pictures'] = (counts.seconds['state and pictures'] || 0) + seconds;
  if (timer) timer.inside += seconds;
  return end;
});
const { Runs } = require('../replay/runs.js'); // it takes the functions above
wrap(Runs.prototype, 'runNow', (native) => function runNow(...args) {
  if (!before.time) begin();
  counts.runs++;
  return native.apply(this, args);
});
const { Replay } = require('../replay/replay.js');
wrap(Replay.prototype, 'close', (native) => function close() {
  counts.wall = (Date.now() - before.time) / 1000;
  counts.analyzer = (statOf('self')?.ofDead || 0) - before.analyzer; // later also the browser is among the dead
  counts.node = secondsOfNode() - before.node;
  counts.browser = secondsOfBrowser() - before.browser;
  return native.call(this);
});

process.on('exit', () => {
  if (before.time && process.env.ER_COUNTS) fs.writeFileSync(process.env.ER_COUNTS, JSON.stringify(counts));
});
