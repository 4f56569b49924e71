'use strict';
// Races replayed by a command: which of them, and for how long. What is reported: replay-results.js.

const { printError } = require('./common/output.js');
const { changing } = require('./browser/changing.js');
const { allOf } = require('./common/at-once.js');
const { shown } = require('./common/shown.js');
const { STATUS } = require('./common/status.js');
const { stoppable } = require('./common/stoppable.js');
const { answersAtOnce, programState } = require('./races/program.js');
const { RecordingFault } = require('./recording/recorder.js');
const { Replay, isStop } = require('./replay/replay.js');
const { MOST_BY_ITSELF, LONGEST_BY_ITSELF } = require('./replay-by-itself.js');
const { leftOutInWords } = require('./replay-left-out.js');
const { ReplayProgress } = require('./replay-progress.js');
const { ReplayResults, raceOf } = require('./replay-results.js');
const { writePage } = require('./view.js');

/** @typedef {import('./races/types').Report} Report */
/** @typedef {import('./list/listing.js').Listing} Listing */
/** @typedef {import('./view.js').Shown} Shown */

/**
 * What a command replays, and how; `name` is the command.
 * @typedef {import('./recording/options.js').CommandOptions & {name: string}} Options
 */

/**
 * What is known of the recorded run; `linked` is the model with all of the view's links.
 * @typedef {{report: Report, model: Shown, linked: Promise<Shown>, listing: Listing}} Judged
 */

/** How many races are replayed if nobody says so. */
const MOST_IF_REQUESTED = 20;
/** How many races go on at once for each run that does: some wait for others, with which they share runs. */
const LANES = 2;

/**
 * Whether races can be replayed: each replay is analyzed several times, so answers must come at once. If not, a line says why. Called by page-races.js and
 * replay-race.js.
 * @param {string} command
 */
function canReplay(command) {
  if (programState() === 'missing') return false; // a line has said so
  if (!answersAtOnce()) {
    printError(`${command}: nothing done: --replay analyzes each replay several times, and each answer takes two minutes until the analyzer is built: `
      + 'run ./er_cli --build (about 25 minutes on four processors), or er_page without --replay');
  }
  return answersAtOnce();
}

/** @param {number} atOnce */
const inWords = (atOnce) => (atOnce > 1 ? `${atOnce} runs of the page at once` : 'one run of the page after the other');

class ReplayCommand {
  /**
   * @param {import('./recording/recorder.js').Recorder} recorder the recorded run, whose browser still runs
   * @param {Options} options
   * @param {string} traceFile
   * @param {Judged} judged
   */
  constructor(recorder, options, traceFile, { report, model, linked, listing }) {
    this.recorder = recorder;
    this.options = options;
    this.traceFile = traceFile;
    this.report = report;
    this.model = model;
    this.linked = linked;
    this.listing = listing;
    this.results = new ReplayResults({ report, model, linked, listing }, traceFile, options);
  }

  /**
   * Prints a line on standard error.
   * @param {string} text
   */
  complain(text) {
    printError(`${this.options.name}: ${text}`);
  }

  /**
   * The races that are requested: by their numbers, else the first of each line of the list that the first run has, since that is run again. By itself, known
   * ones are not replayed.
   */
  wanted() {
    const { races, isReplayed } = this.options;
    const told = this.listing.told().map(({ line }) => line);
    const lines = [...told, ...isReplayed ? this.listing.knownLines() : []].filter(({ run }) => run === 0);
    const numbers = races.length ? races : lines.map(raceOf);
    /** @param {number} number */
    const isThere = (number) => !!this.report.races[number - 1];
    const wrong = numbers.find((number) => !isThere(number));
    if (wrong !== undefined) this.complain(`there is no race ${wrong}`);
    return [...new Set(numbers)].filter(isThere);
  }

  /** How many of them are replayed at most. */
  most() {
    return this.options.most ?? (this.options.isReplayed ? MOST_IF_REQUESTED : MOST_BY_ITSELF);
  }

  /** The races that are replayed. */
  numbers() {
    return this.wanted().slice(0, this.most());
  }

  /**
   * Has the list say why a problem was not replayed.
   * @param {string} why
   */
  noteLeftOut(why) {
    this.listing.entries.notReplayedWords = (line) => leftOutInWords(line, this.options, this.traceFile, why);
  }

  /** Whether the page is allowed to load again and again. Requests that might change something on a server need `--yes`. */
  mayRun() {
    const changed = changing(this.recorder.responses?.asked || [], this.recorder.folder);
    const foreign = changed.filter(({ isForeign }) => isForeign);
    /** @param {{text: string}[]} requests */
    const list = (requests) => requests.map(({ text }) => shown(text)).join(', ');
    if (foreign.length && !this.options.mayChange) {
      this.complain(`not run again: each run would send once more: ${list(foreign)}; --yes lets it`);
      return false;
    }
    if (changed.length) printError(`Each run sends again: ${list(changed)}`);
    return true;
  }

  /**
   * Replays the races, prints what came of each, and writes the files.
   * @returns {Promise<number>} 0, or the status with which it ended before its end
   */
  async run() {
    if (!this.mayRun()) {
      writePage(this.traceFile, await this.linked);
      return STATUS.usage;
    }
    const replay = new Replay(this.recorder, this.options, this.traceFile, this.report);
    let status = STATUS.ok;
    this.noteLeftOut(`not among the first ${this.most()}`);
    const limit = this.limit(replay);
    try {
      await stoppable(() => replay.interrupt(), () => this.replayEach(replay));
    } catch (fault) {
      if (!(fault instanceof RecordingFault)) throw fault;
      const isOver = limit.isReached && isStop(fault);
      this.complain(isOver ? `replays ended after ${LONGEST_BY_ITSELF / 1000} s, with ${this.results.all.length} of ${this.numbers().length} races done; --replay does all` : fault.message);
      this.noteLeftOut(isOver ? `${LONGEST_BY_ITSELF / 1000} s were over` : 'the replays were stopped');
      status = isOver ? STATUS.ok : fault.status;
    } finally {
      limit.end();
      await replay.close();
    }
    await this.results.tell(replay, this.numbers().length);
    return status;
  }

  /**
   * Ends replays that nobody has requested after a time.
   * @param {Replay} replay
   */
  limit(replay) {
    const limit = { isReached: false, end: () => {} };
    if (this.options.isReplayed || this.options.name !== 'er_page') return limit;
    const timer = setTimeout(() => {
      limit.isReached = true;
      replay.interrupt();
    }, LONGEST_BY_ITSELF);
    return Object.assign(limit, { end: () => clearTimeout(timer) });
  }

  /**
   * Replays the races at once, the first ones first: while one waits for the analyzer, the next one has its runs.
   * @param {Replay} replay
   */
  async replayEach(replay) {
    const numbers = this.numbers();
    const left = [...numbers];
    replay.runs.numbers = numbers;
    const ofItself = this.options.isReplayed ? '' : ' (--no-replay leaves this out)';
    printError(`Each of ${numbers.length} run again in the other order, ${inWords(replay.runs.slots.most)}${ofItself}:`);
    const progress = new ReplayProgress(replay.runs, numbers.length);
    const goOn = async () => {
      for (let number = left.shift(); number !== undefined; number = left.shift()) {
        const result = await replay.reverse(this.report.races[number - 1], number);
        progress.print(number, this.results.add(number, result));
      }
    };
    try {
      await allOf([replay.runFreely(), ...Array.from({ length: Math.min(LANES * (replay.runs.slots.most + 1), numbers.length) }, goOn)], isStop);
    } finally {
      progress.end();
    }
  }
}

/**
 * Runs the page again for each race. Returns 0, or the status with which it ended before its end. Called by page-races.js and replay-race.js.
 * @param {import('./recording/recorder.js').Recorder} recorder
 * @param {Options} options
 * @param {string} traceFile
 * @param {Judged} judged
 */
function replayRaces(recorder, options, traceFile, judged) {
  return new ReplayCommand(recorder, options, traceFile, judged).run();
}

module.exports = { ReplayCommand, canReplay, replayRaces };
