'use strict';
// er_suite --replay-with COMMAND: runs the suite once more with nothing held back, then for each problem with what brings its first access held back.
// `er_suite` runs the tests again with a response or a callback delayed.

const fs = require('node:fs');
const path = require('node:path');
const { redactedObject, redactedValue } = require('./common/secrets.js');
const { jsonText } = require('./common/shown.js');
const { STATUS } = require('./common/status.js');
const { makeFolder, writeWhole } = require('./common/whole-file.js');
const { printError } = require('./common/output.js');
const { movedTo } = require('./driven/hold-plan.js');
const { UsageFault } = require('./recording/options.js');
const { sorted } = require('./replay/found/differences.js');
const { judgeReversal } = require('./replay/reversal.js');
const { sentenceOf } = require('./replay/sentence.js');
const { verdictInWords, worstOf } = require('./replay/verdict.js');
const { SuiteLoad, racesByName } = require('./suite-loads.js');
const { SuiteRun } = require('./suite-run.js');

/** @typedef {import('./list/loads-listing.js').LoadsListing} LoadsListing */
/** @typedef {import('./list/listing.js').Listed} Listed */
/** @typedef {import('./loads.js').Judged} Judged */
/** @typedef {import('./races/types').Race} Race */
/** @typedef {import('./replay/types').Difference} Difference */
/** @typedef {import('./suite-run.js').Ended} Ended */
/** @typedef {import('./suite-run.js').Plan} Plan */
/** @typedef {{replayWith: string, wanted: string[], suiteTime: number}} Options */
/**
 * What came of a problem in the other order. `isFound` is false if its race did not come again. `words` and `differences` are as in OUT.replay.json
 * (docs/replay.md), and `sentence` is the short form for the list; `suiteStatus` is that of the command, `folder` has the run's traces and output.
 * @typedef {{name: string, race: number, isFound: boolean, verdict: 'turned'|'not turned', effect?: string, words: string, sentence?: string, why?: string, means?: string,
 *   heldFor?: number, suiteStatus?: number, differences?: Difference[], unsteady?: Difference[], folder?: string}} Outcome
 */

/** How many problems are run by default, and how many causes of each are tried. */
const MOST = 5;
const MOST_CAUSES = 2;
/** What is held back is released after the length of the load, at most so many milliseconds, and these: a test has limits of its own. */
const LONGEST_LENGTH = 10000;
const GRACE = 5000;
const NOT_FOUND = 127;
const NOT_RUN = 126;
/** Seconds that a run of the suite can take. */
const LONGEST_SUITE = 600;
/** The worst effect of all. */
const FAILING = 'a failing test';
const LONGEST_TAIL = 500;

/** @param {string} file what a command printed */
const tailOf = (file) => fs.readFileSync(file, 'utf8').trimEnd().slice(-LONGEST_TAIL).split('\n').slice(-3).join(' | ');

/** Made by suite.js for `er_suite --replay-with`, and by index-task.js for programs. */
class SuiteReplays {
  /**
   * @param {LoadsListing} listing
   * @param {Judged[]} judged the loads of the list
   * @param {Options} options
   * @param {string} folder
   */
  constructor(listing, judged, { replayWith, wanted, suiteTime }, folder) {
    this.listing = listing;
    this.judged = judged;
    this.command = replayWith;
    this.wanted = wanted;
    this.time = suiteTime || LONGEST_SUITE;
    this.folder = path.join(folder, 'replays');
    /** @type {Outcome[]} */
    this.outcomes = [];
    /** @type {SuiteRun|null} */
    this.current = null;
    this.isStopped = false;
    /** @type {Ended|null} the run with nothing held back */
    this.free = null;
    /** @type {Awaited<ReturnType<typeof racesByName>>} */
    this.races = new Map();
  }

  /** The problems that are meant: by their places in the list, or their names. */
  problems() {
    const { listing, wanted } = this;
    const lines = [...listing.told().map(({ line }) => line), ...listing.knownLines()];
    if (!wanted.length) return lines.slice(0, MOST);
    return wanted.map((one) => {
      const found = /^[1-9]\d{0,6}$/.test(one) ? lines[Number(one) - 1] : listing.problems.find(({ name }) => name === one);
      if (!found) throw new UsageFault(`--replay: no problem of the list is ${one}`);
      return found;
    });
  }

  /** Ends the run that is under way; no further one starts. */
  stop() {
    this.isStopped = true;
    this.current?.stop();
  }

  /**
   * Runs the suite for each problem, and prints what came of it.
   * @returns {Promise<number>} 0, or the status with which it ended before its end
   */
  async run() {
    const problems = this.problems();
    if (!problems.length) return STATUS.ok;
    fs.rmSync(this.folder, { recursive: true, force: true });
    makeFolder(this.folder);
    const status = await this.runFreely();
    for (const problem of status ? [] : problems) {
      if (this.isStopped) break;
      await this.replay(problem);
    }
    this.report();
    return this.isStopped ? STATUS.stopped : status;
  }

  /**
   * Runs the suite once with a plan.
   * @param {string} name
   * @param {Plan} plan
   */
  async runOnce(name, plan) {
    const run = new SuiteRun(this.command, path.join(this.folder, name), plan, this.time);
    this.current = run;
    if (this.isStopped) run.stop();
    const ended = await run.run();
    this.current = null;
    return ended;
  }

  /** Runs the suite with nothing held back. Returns the status of a command that cannot be used. */
  async runFreely() {
    printError(`er_suite: the suite runs with nothing held back: ${this.command}`);
    const free = await this.runOnce('free', { hold: 1 });
    this.free = free;
    if (free.isStopped) return STATUS.stopped;
    const output = `${free.output}: ${tailOf(free.output)}`;
    if (free.isLate) return complain(`nothing is replayed: the suite took longer than ${this.time} s (--time); ${output}`, STATUS.noPage);
    if ((free.status === NOT_FOUND || free.status === NOT_RUN) && !free.traces.length) return complain(`nothing is replayed: the command cannot be run; ${output}`, STATUS.usage);
    if (!free.traces.length) {
      return complain(`nothing is replayed: the suite loaded no page in er_browser; is that its browser, and does it get ER_TRACES and ER_HOLD? ${output}`, STATUS.noPage);
    }
    if (free.status) printError(`er_suite: the suite fails by itself (status ${free.status}), so its status says nothing of a race; ${output}`);
    this.races = await racesByName(free.traces);
    return STATUS.ok;
  }

  // ---- one problem

  /**
   * Replays one problem.
   * @param {Listed} problem
   */
  async replay(problem) {
    const { run, first, name } = problem;
    const found = this.races.get(this.listing.runs[run].ofRaces[first].name) || this.races.get(name);
    const facts = { name, race: first + 1, isFound: !!found };
    if (!found) {
      this.note({ ...facts, verdict: 'not turned', why: 'the race did not come again in the run with nothing held back', words: '' });
      return;
    }
    const load = new SuiteLoad(found.file);
    const { causes, why } = await load.toReverse(found.race);
    /** @type {Outcome} */
    let outcome = { ...facts, verdict: 'not turned', why, words: '' };
    const whys = [];
    for (const [k, cause] of causes.slice(0, MOST_CAUSES).entries()) {
      if (this.isStopped) break;
      const tried = await this.tryCause({ problem, load, race: found.race, cause }, k);
      outcome = { ...facts, ...tried };
      whys.push(tried.why ? `${cause.words}: ${tried.why}` : '');
      if (tried.verdict === 'turned') break;
    }
    if (outcome.verdict !== 'turned' && whys.length) outcome.why = [...new Set(whys)].join('; ');
    if (!this.isStopped || outcome.verdict === 'turned') this.note(outcome);
  }

  /**
   * Runs the suite with a cause held back, and says what came of it.
   * @param {{problem: Listed, load: SuiteLoad, race: Race, cause: Awaited<ReturnType<SuiteLoad['toReverse']>>['causes'][0]}} wanted
   * @param {number} k which of the causes it is
   * @returns {Promise<Omit<Outcome, 'name'|'race'|'isFound'>>}
   */
  async tryCause({ problem, load, race, cause }, k) {
    const sides = load.sidesOf(race);
    const { address, nth = 1 } = load.facts;
    const longest = Math.min(load.length(), LONGEST_LENGTH) + GRACE;
    printError(`er_suite: the suite runs for ${this.listing.summaryOf(problem)}: ${cause.words}`);
    const folder = `${this.listing.problems.indexOf(problem) + 1}-${problem.name}${k ? `-${k + 1}` : ''}`;
    const ended = await this.runOnce(folder, { hold: 1, load: { address, nth }, cause, second: sides[1], longest });
    const loads = ended.traces.map((file) => new SuiteLoad(file)).filter(({ facts }) => facts.held);
    const [held] = loads.sort((a, b) => Number(b.facts.held?.isReached) - Number(a.facts.held?.isReached));
    const own = { folder: path.join('replays', folder), suiteStatus: ended.status };
    if (ended.isLate) return { ...own, verdict: 'not turned', why: `the suite took longer than ${this.time} s (--time)`, words: '' };
    if (!held) {
      const why = nth === 1 ? `the suite did not load ${address}` : `the suite loaded ${address} fewer than ${nth} times`;
      return { ...own, verdict: 'not turned', why, words: '' };
    }
    return { ...own, ...await this.judge({ load, held, sides, race, cause }, ended, problem) };
  }

  /**
   * The verdict on a race by a load in which its first access was held back, compared with the load in which nothing was.
   * @param {{load: SuiteLoad, held: SuiteLoad, sides: ReturnType<SuiteLoad['sidesOf']>, race: Race, cause: import('./replay/types').Cause}} tried
   * @param {Ended} ended
   * @param {Listed} problem
   * @returns {Promise<Omit<Outcome, 'name'|'race'|'isFound'>>}
   */
  async judge({ load, held, sides, race, cause }, ended, problem) {
    const { isHeld = false, isReached = false, heldFor = 0 } = held.facts.held || {};
    const run = /** @type {import('./replay/types').FurtherRun} */ (/** @type {unknown} */ ({ keys: held.keys, file: held.file })); // what is read of one
    const hold = /** @type {import('./replay/hold.js').Hold} */ ({ heldAt: Number(isHeld), isReached }); // so too
    const moved = movedTo(sides, load.facts.address, held.facts.address);
    const judged = await judgeReversal(run, hold, { cause, race, sides: moved, isLoose: false, needed: 0 });
    if (!judged.isTurned) return { verdict: 'not turned', why: judged.why, words: '', heldFor };
    const found = sorted(load.differencesTo(held), this.unsteadyOf(load, problem));
    const differences = [...this.ofSuite(ended), ...found.differences];
    const { note, isListed } = judged;
    /** @type {import('./replay/types').Result} */
    const result = { verdict: 'turned', differences, beside: found.beside, unsteady: found.unsteady, note, isListed };
    const [ofSuite] = this.ofSuite(ended);
    const worst = worstOf(result);
    const sentence = sentenceOf(result, ofSuite || worst?.difference, race.location);
    const effect = ofSuite ? FAILING : worst?.name;
    return { verdict: 'turned', ...effect ? { effect } : {}, words: verdictInWords(result), sentence, means: cause.words, heldFor, differences, unsteady: found.unsteady };
  }

  /**
   * That the suite fails in the other order alone.
   * @param {Ended} ended
   * @returns {Difference[]}
   */
  ofSuite({ status }) {
    if (this.free?.status || !status) return [];
    return [{ kind: 'suite', subject: "the suite's status", isSeen: true, recorded: '0', other: String(status) }];
  }

  /**
   * What differs between two runs in the recorded order: that of the list, and that with nothing held back.
   * @param {SuiteLoad} load
   * @param {Listed} problem
   */
  unsteadyOf(load, { run }) {
    const recorded = new SuiteLoad(this.judged[run].file);
    return recorded.facts.nth === load.facts.nth ? recorded.differencesTo(load) : [];
  }

  // ---- what came of all

  /**
   * Notes and prints what came of a problem.
   * @param {Outcome} outcome
   */
  note(outcome) {
    /** @type {import('./replay/types').Result} */
    const result = { verdict: 'not turned', why: outcome.why };
    const words = outcome.words || verdictInWords(result);
    this.outcomes.push({ ...outcome, words, sentence: outcome.sentence || sentenceOf(result, undefined) });
    const problem = this.listing.problems.find(({ name }) => name === outcome.name);
    printError(`er_suite: ${problem ? this.listing.summaryOf(problem) : outcome.name}: ${words}`);
  }

  /** The list gets the verdicts, and the folder a file with all of them. */
  report() {
    const outcomes = redactedObject(this.outcomes);
    const runOf = new Map(this.listing.problems.map(({ name, run }) => [name, run]));
    for (const run of new Set(runOf.values())) {
      const own = outcomes.filter(({ name }) => runOf.get(name) === run);
      if (own.length) this.listing.setVerdicts(run, own);
    }
    const free = this.free && { status: this.free.status, seconds: this.free.seconds };
    writeWhole(path.join(this.folder, 'replays.json'), `${jsonText({ replays: 1, command: this.command, free, problems: outcomes }, 1, redactedValue)}\n`);
    const count = (/** @type {(one: Outcome) => unknown} */ test) => outcomes.filter(test).length;
    const [failing, turned] = [count(({ effect }) => effect === FAILING), count(({ verdict }) => verdict === 'turned')];
    if (outcomes.length) printError(`Of ${outcomes.length}: ${turned} came in the other order, in ${failing} of these the suite failed; ${path.join(this.folder, 'replays.json')}`);
  }
}

/**
 * @param {string} text
 * @param {number} status
 */
function complain(text, status) {
  printError(`er_suite: ${text}`);
  return status;
}

module.exports = { SuiteReplays };
