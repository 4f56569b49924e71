'use strict';
// Further runs of a recorded page, several at once. How many run concurrently (limits of `--at-once`), each with its timeout.

const fs = require('node:fs');
const os = require('node:os');
const path = require('node:path');
const { AtOnce } = require('../common/at-once.js');
const { STATUS } = require('../common/status.js');
const { writeWhole } = require('../common/whole-file.js');
const { changing } = require('../browser/changing.js');
const { Recorder, RecordingFault } = require('../recording/recorder.js');
const { Due } = require('./due.js');
const { takeEnd } = require('./found/end-state.js');
const { hasOnlyTurns, mostFrequent } = require('./found/turns.js');
const { readKeys } = require('./read-run.js');
const { RunSteering } = require('./steering.js');

/** @typedef {import('./types').FurtherRun} FurtherRun */
/** @typedef {import('./types').ReplayOptions} ReplayOptions */

/**
 * What is held back is released so many milliseconds after the length of the recorded run, which had the processors alone. Earlier if the page is quiet:
 * QUIET_WITH_REVERSALS in steering.js.
 */
const GRACE = 5000;
/** How many lines the logs of all runs have that go on at once. */
const LINES_AT_ONCE = 200000;

/**
 * Options of a recording whose end is compared: the page stands still then. Called by replay.js.
 * @template T
 * @param {T} options
 */
function withEnd(options) {
  const whenOver = (/** @type {Recorder} */ recorder) => takeEnd(recorder).then((end) => {
    recorder.end = end;
    recorder.endTime = Date.now();
  });
  return { ...options, standsStill: true, whenOver, hasOnlyTurns };
}

/**
 * Called by confirm.js and replay.js.
 * @param {unknown} error
 */
const isStop = (error) => error instanceof RecordingFault && error.status === STATUS.stopped;

/**
 * How many runs of a page go on at once: they mostly wait. Only one if a run may change something on a server, which another run would find; fewer if the log
 * is long, since reading it delays the other runs. Called by replay.js.
 * @param {{atOnce?: number}} options
 * @param {{responses?: {asked: string[]}|null, intake: {entries: unknown[]}}} recorder of the recorded run
 */
function runsAtOnce({ atOnce }, { responses, intake }, processors = os.availableParallelism()) {
  if (atOnce) return atOnce;
  if (responses && changing(responses.asked).length) return 1;
  return Math.max(1, Math.min(processors, Math.floor(LINES_AT_ONCE / Math.max(intake.entries.length, 1))));
}

/** Made by `Replay`, for all its runs. */
class Runs {
  /**
   * @param {import('./recorded.js').Recorded} recorded
   * @param {ReplayOptions} options
   */
  constructor(recorded, options) {
    const { recorder, traceFile, acts, length } = recorded;
    this.recorder = recorder;
    this.options = options;
    this.acts = acts;
    this.longest = length + GRACE;
    this.folder = path.join(path.dirname(traceFile), 'replays');
    fs.rmSync(this.folder, { recursive: true, force: true });
    this.slots = new AtOnce(runsAtOnce(options, recorder));
    /**
     * The runs that are under way.
     * @type {Set<Recorder>}
     */
    this.current = new Set();
    /**
     * The races that are run again, in this order.
     * @type {number[]}
     */
    this.numbers = [];
    /**
     * How many runs each of them had.
     * @type {Map<number, number>}
     */
    this.counts = new Map();
    /** How many runs are over. */
    this.done = 0;
    /** How many milliseconds the longest of them took. */
    this.longestRun = 0;
    /** What keeps a page going that never rests: other runs end after as many of these turns. */
    this.turns = recorder.isRestless ? mostFrequent(recorder.intake.entries) : null;
    this.isStopped = false;
    /** What the runs get from memory. After a request that may change something, a server may answer otherwise. */
    this.received = changing(recorder.responses?.asked || []).length ? null : recorder.kept;
  }

  /** Stops the runs that are under way. Called by replay.js. */
  interrupt() {
    this.isStopped = true;
    this.current.forEach((recorder) => recorder.interrupt());
  }

  /**
   * Runs the page as soon as there is room: runs of the first race come first. Called by confirm.js and in-order.js.
   * @param {string} name
   * @param {number[]} numbers of the races it is for; none if it is for all
   * @param {RunSteering|null} steering
   */
  run(name, numbers, steering) {
    numbers.forEach((number) => this.counts.set(number, (this.counts.get(number) || 0) + 1));
    const rank = numbers.length ? this.numbers.indexOf(numbers[0]) : -1;
    return this.slots.do(rank, () => this.runNow(name, steering));
  }

  /**
   * Records the page once more, and writes the trace of this run.
   * @param {string} name
   * @param {RunSteering|null} steering
   * @returns {Promise<FurtherRun>}
   */
  async runNow(name, steering) {
    const recorder = new Recorder(this.recorder.given, this.optionsOf(steering));
    this.stopIfAsked();
    this.current.add(recorder);
    const start = Date.now();
    try {
      await recorder.record();
    } finally {
      this.current.delete(recorder);
      this.done++;
      this.longestRun = Math.max(this.longestRun, Date.now() - start);
    }
    this.stopIfAsked();
    await recorder.readMaps();
    const end = /** @type {import('./found/end-state.js').End} */ (recorder.end);
    const run = { name, recorder, end, ...readKeys(recorder, this.options), file: path.join(this.folder, `${name}.trace`) };
    this.write(run);
    return run;
  }

  /**
   * The options of a further run.
   * @param {RunSteering|null} steering
   */
  optionsOf(steering) {
    const { browser, sources, options: { fixed } } = this.recorder;
    const time = this.options.time + Math.ceil(this.longest / 1000);
    const own = { actions: this.acts, clicks: 0, time, browser: /** @type {import('../browser/chromium.js').Chromium|null} */ (browser), sources, received: this.received, fixed, steering, turns: this.turns, isGuarded: !this.options.mayChange };
    return withEnd({ ...this.options, ...own });
  }

  stopIfAsked() {
    if (this.isStopped) throw new RecordingFault('stopped', STATUS.stopped);
  }

  /**
   * Writes the trace and the names of a further run. Called by in-order.js.
   * @param {FurtherRun} run
   */
  write({ file, text, names }) {
    fs.mkdirSync(this.folder, { recursive: true });
    writeWhole(file, text);
    writeWhole(file.replace(/trace$/, 'names.json'), names.toJson({ page: this.recorder.given, trace: path.basename(file) }));
  }

  /**
   * What a run holds back. Called by confirm.js and in-order.js.
   * @param {import('./types').Reversal[]} reversals
   * @param {import('./types').OrderHold[]} orderHolds
   */
  steer(reversals, orderHolds) {
    const due = (/** @type {import('../races/types').AccessIdentity} */ side, isLoose = false) => new Due(side, this.options, isLoose);
    const first = reversals.map((one) => ({ ...one, due: one.length === undefined ? due(one.sides[1], one.isLoose) : null }));
    return new RunSteering(first, orderHolds.map((one) => ({ ...one, due: due(one.side) })), this.longest, this.slots.most);
  }
}

module.exports = { Runs, withEnd, isStop, runsAtOnce };
