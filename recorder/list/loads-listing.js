'use strict';
// The list over many page loads of a test suite: each problem once, with the loads in which it was seen. It merges all loads: a problem of two tests is one
// line.

const { Entries } = require('./entries.js');
const { Listing } = require('./listing.js');

/**
 * @typedef {import('./listing.js').Listed} Listed
 * @typedef {import('./loads-run.js').LoadRun} LoadRun
 */

/** What the list says of the problems, as each load has stored it. */
class LoadEntries extends Entries {
  /** @param {LoadsListing} listing */
  constructor(listing) {
    super(listing, null);
    this.loads = listing.loads;
    this.notReplayedWords = (/** @type {Listed} */ { name }) => (listing.verdicts.some((some) => some?.size) ? `no (--replay ${name} does it)` : '');
  }

  /**
   * What the process that analyzed a load has said of a problem: this one has no trace of it.
   * @param {Listed} line
   */
  saidOf({ run, name }) {
    const said = this.loads[run].said.get(name);
    if (!said) throw new Error(`load ${run + 1} has not stored what is said of ${name}`);
    return said;
  }

  /** @param {Listed} line */
  toldOf(line) {
    return this.saidOf(line).told;
  }

  /** @param {Listed} line */
  callOf(line) {
    return this.saidOf(line).told.call;
  }

  /** @param {Listed} line */
  alsoOf(line) {
    return this.saidOf(line).alsos;
  }

  /** @param {Listed} line */
  hasBothReplies(line) {
    return this.saidOf(line).hasBoth;
  }

  /** @param {Listed} line */
  causeOf(line) {
    return this.saidOf(line).cause;
  }
}

/** Made by loads.js, for `er_suite` and for `er_page` with several pages. */
class LoadsListing extends Listing {
  /**
   * @param {LoadRun[]} runs
   * @param {import('./known.js').Known|null} known
   * @param {{countsActs?: boolean}} options
   * @param {string[]} views the file of each load's view, as the lines name it
   */
  constructor(runs, known, options, views) {
    // a load has the members of `Problems` that lists read, and no others
    super(/** @type {import('./problems.js').Problems[]} */ (/** @type {unknown} */ (runs)), known, options);
    this.loads = runs;
    this.views = views;
    this.entries = new LoadEntries(this);
  }

  /**
   * In how many loads a problem was seen, and where first.
   * @param {Listed} problem
   */
  seenInWords({ runs, orders }) {
    const both = orders.size > 1 ? ', in both orders' : '';
    return `seen in ${runs.length} of ${this.runs.length} loads${both}: ${this.views[runs[0] - 1]}`;
  }

  /** How many lines each load has, new ones and known ones. */
  countsByLoad() {
    const counts = this.runs.map(() => ({ fresh: 0, known: 0 }));
    for (const { runs, isKnown } of this.lines) runs.forEach((run) => { counts[run - 1][isKnown ? 'known' : 'fresh']++; });
    return counts;
  }
}

module.exports = { LoadsListing };
