'use strict';
// The list over one or more recordings of a page: each problem once, in how many recordings it was seen (a flaky one: in 2 of 3 runs), whether in both orders,
// and whether it is known.

const { Entries } = require('./entries.js');
const { grouped } = require('./grouping.js');
const { APART } = require('./patterns/table.js');
const { hasLine } = require('./problems.js');
const { partOf, rankOf, sortByRank } = require('./rank.js');

/**
 * @typedef {import('./problems.js').Problem} Problem
 * @typedef {import('./problems.js').Problems} Problems
 * @typedef {import('./types').Verdict} Verdict
 * @typedef {import('../browser/folder.js').Folder} Folder
 */
/**
 * In which runs a race was seen (from 1), and in which orders: the sum of 1 and 2.
 * @typedef {{runs: number[], orders: number}} Seen
 */
/**
 * A problem of all runs. `run` is the index of the first one, of which the other members are; `seen` has the races by name.
 * @typedef {Problem & {run: number, runs: number[], seen: Map<string, Seen>, orders: Set<number>, hasLine: boolean, isKnown: boolean}} Listed
 */
/** @typedef {{line: Listed, others: Listed[]}} Line a line of the list, with the other problems that it stands for */

/** Made for each list: by page-races.js, view.js and replay-race.js; LoadsListing extends it. */
class Listing {
  /**
   * @param {Problems[]} runs
   * @param {import('./known.js').Known|null} known
   * @param {{countsActs?: boolean, folder?: Folder|null}} options whether two acts of a user against each other fail a build too, and the served folder
   */
  constructor(runs, known, { countsActs = false, folder = null } = {}) {
    this.runs = runs;
    this.known = known;
    /** @type {Map<number, Verdict>[]} by run, and by the index of the race */
    this.verdicts = [];
    this.countsActs = countsActs;
    this.entries = new Entries(this, folder);
    /** The problems of each run by name. */
    this.byName = runs.map(({ list }) => new Map(list.map((one) => [one.name, one])));
    this.problems = this.sorted(this.merge());
    const covered = this.coveredByKnown();
    /** Those with a line: no other problem's line covers them. */
    this.lines = this.problems.filter((one) => one.hasLine || (!one.isKnown && covered.has(one.name)));
    this.lineNames = new Set(this.lines.map(({ name }) => name));
  }

  /**
   * What came of the races of a run in the other order: the members of OUT.replay.json. Called by replay-results.js and suite-replays.js.
   * @param {number} run @param {Verdict[]} races
   */
  setVerdicts(run, races) {
    this.verdicts[run] = new Map(races.map((race) => [race.race - 1, race]));
    this.problems = this.sorted(this.problems);
    this.lines = this.sorted(this.lines);
  }

  /**
   * The rank of a problem: a lower one comes first. Called by json.js.
   * @param {Listed} problem
   */
  rankOf(problem) {
    return rankOf(problem.look, this.verdictOf(problem));
  }

  /**
   * The section of the list in which a problem is.
   * @param {Listed} problem
   */
  partOf(problem) {
    return partOf(problem.look, this.verdictOf(problem));
  }

  /**
   * By the consequence; then by the pattern, the run and the race.
   * @param {Listed[]} problems
   */
  sorted(problems) {
    const list = [...problems].sort((a, b) => a.look.rank - b.look.rank || a.run - b.run || a.races[0] - b.races[0]);
    return sortByRank(list, (one) => ({ rank: this.rankOf(one), part: this.partOf(one), isKnown: one.isKnown }));
  }

  /**
   * The verdict of the first race of a problem that was run again. Called by entries.js, json.js and sarif.js.
   * @param {{name: string}} problem @returns {Verdict|undefined}
   */
  verdictOf({ name }) {
    for (const [k, verdicts] of this.verdicts.entries()) {
      const race = this.problemOf(k, name)?.races.find((one) => verdicts?.has(one));
      if (race !== undefined) return verdicts.get(race);
    }
    return undefined;
  }

  /**
   * A problem of a run, if that has it. Called by json.js.
   * @param {number} run @param {string} name
   */
  problemOf(run, name) {
    return this.byName[run].get(name);
  }

  /**
   * The problems of all runs, each once, by their stable names.
   * @returns {Listed[]}
   */
  merge() {
    /** @type {Map<string, Listed>} */
    const all = new Map();
    this.runs.forEach((run, k) => run.list.forEach((problem) => {
      let one = all.get(problem.name);
      if (!one) {
        one = { ...problem, run: k, runs: [], seen: new Map(), orders: new Set(), hasLine: false, isKnown: false };
        all.set(problem.name, one);
      }
      this.add(one, problem, k);
    }));
    const problems = [...all.values()];
    for (const one of problems) one.isKnown = !!this.known && this.known.hasProblem(one);
    return problems;
  }

  /**
   * A run has a problem.
   * @param {Listed} one @param {Problem} problem @param {number} k
   */
  add(one, problem, k) {
    const { ofRaces } = this.runs[k];
    one.runs.push(k + 1);
    if (one.look.isIdle && !problem.look.isIdle) one.look = { ...one.look, isIdle: false };
    one.hasLine = one.hasLine || hasLine(problem);
    for (const race of problem.races) {
      const { name, order, ownOrder } = ofRaces[race];
      noteRace(one.seen, name, ownOrder, k);
      if (order) one.orders.add(order);
    }
  }

  /** The names of the problems of which a race is covered by the line of a known one. */
  coveredByKnown() {
    /** @type {Set<string>} */
    const covered = new Set();
    const known = new Set(this.problems.filter((one) => one.isKnown).map((one) => one.name));
    if (!known.size) return covered;
    for (const { report, ofRaces, leads } of this.runs) {
      report.races.forEach(({ group }, race) => {
        if (known.has(ofRaces[leads[group - 1]].problem)) covered.add(ofRaces[race].problem);
      });
    }
    return covered;
  }

  /** The lines of problems that are not known. Called by loads-page.js. */
  fresh() {
    return this.lines.filter(({ isKnown }) => !isKnown);
  }

  /**
   * Whether a problem that is not known makes a build fail: `act against act` does only with `--acts` (`countsActs`), since it is no fault of the page that a
   * user may do two things in another order. Called by outputs.js.
   * @param {Problem} problem
   */
  counts({ look }) {
    return this.countsActs || look.part !== APART;
  }

  /** What a build fails for, and a command with `--known`: the new problems. Called by many, as page-races.js for the exit status. */
  failing() {
    return this.fresh().filter((one) => this.counts(one));
  }

  /**
   * The lines of the list, each with the other problems that it stands for, as outputs.js and others print and count them.
   * @returns {Line[]}
   */
  told() {
    return grouped(this);
  }

  /** The lines of problems that are known. */
  knownLines() {
    return this.lines.filter(({ isKnown }) => isKnown);
  }

  /** The known problems that no run has. Called by json.js and outputs.js. */
  notSeen() {
    return this.known ? this.known.notSeen(this.problems) : [];
  }

  /**
   * The name of the problem in whose line a race is: its own, or the one that covers it. So each race is in one line. Called by view/choice.js.
   * @param {number} run @param {number} race its index
   */
  lineOfRace(run, race) {
    const { ofRaces, leads, report } = this.runs[run];
    const { problem } = ofRaces[race];
    return this.lineNames.has(problem) ? problem : ofRaces[leads[report.races[race].group - 1]].problem;
  }

  /**
   * How many races are in the line of a problem: its own, and those that it covers of problems without a line. Called by entries.js.
   * @param {Listed} problem
   */
  size({ name, run }) {
    const { counts, covered } = this.runs[run];
    const others = [...covered.get(name) || []].filter(([other]) => !this.lineNames.has(other));
    return others.reduce((sum, [, count]) => sum + count, counts.get(name) || 0);
  }

  /**
   * All lines for the view, in the order of the list, what is known last: the section of each, and its problems, first the one whose words it has. Called by
   * view/choice.js, view/lines.js and view/model.js.
   * @returns {{part: string, isKnown: boolean, problems: Listed[]}[]}
   */
  inOrder() {
    const told = this.told().map(({ line, others }) => ({ part: this.partOf(line), isKnown: false, problems: [line, ...others] }));
    return [...told, ...this.knownLines().map((line) => ({ part: this.partOf(line), isKnown: true, problems: [line] }))];
  }

  /**
   * In how many runs, and in which orders; if the first run lacks it, where it is shown. Called by entries.js, loads-junit.js and sarif.js.
   * @param {Listed} problem
   */
  seenInWords({ runs, orders }) {
    if (this.runs.length === 1) return '';
    const both = orders.size > 1 ? ', in both orders' : '';
    const where = runs[0] > 1 ? `: runs/${runs[0]}.html` : '';
    return `seen in ${runs.length} of ${this.runs.length} runs${both}${where}`;
  }

  /**
   * What is said of a problem: a sentence with its place, the two sides, and more. Called by outputs.js.
   * @param {Listed} line @param {Listed[]} [others]
   */
  entryOf(line, others = []) {
    return this.entries.of(line, others);
  }

  /**
   * The first line of a problem.
   * @param {Listed} line
   */
  summaryOf(line) {
    return this.entries.summaryOf(line);
  }

  /**
   * Which order of a problem the recording had. Called by json.js.
   * @param {Listed} line
   */
  recordedOf(line) {
    return this.entries.recordedOf(line, []);
  }

  /**
   * A usual change for a problem. Called by json.js and loads-page.js.
   * @param {Listed} line
   */
  fixOf(line) {
    return this.entries.fixOf(line, []);
  }
}

/** @param {Map<string, Seen>} seen @param {string} name @param {number} order @param {number} run */
function noteRace(seen, name, order, run) {
  let one = seen.get(name);
  if (!one) seen.set(name, one = { runs: [run + 1], orders: order });
  else if (one.runs[one.runs.length - 1] !== run + 1) one.runs.push(run + 1);
  one.orders |= order;
}

module.exports = { Listing };
