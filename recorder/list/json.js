'use strict';
// The list as one object for other tools (docs/ci.md). The output of `--json`: its members (fields) and `format` (its version).

const { placesOf, plainPlace } = require('./places.js');
const { kindOf } = require('./verdicts.js');

/** The sum of the two orders. */
const BOTH_ORDERS = 3;

/**
 * @typedef {import('../browser/folder.js').Folder} Folder
 * @typedef {import('./listing.js').Listing} Listing
 * @typedef {import('./listing.js').Listed} Listed
 */
/**
 * What is known of the list as a whole; `loads` are those of a suite.
 * @typedef {{page: string, status: number, files: string[], folder: Folder|null, loads?: import('./types').Load[]}} ListFacts
 */

/**
 * One race of a problem in a run.
 * @param {import('./problems.js').Problems} problems @param {number} race @param {number} run @param {Folder|null} folder
 */
function plainRace(problems, race, run, folder) {
  const one = problems.report.races[race];
  return {
    name: problems.ofRaces[race].name,
    run: run + 1,
    race: race + 1,
    modes: one.modes,
    lines: one.lines,
    actions: one.actions,
    words: problems.words.race(one),
    places: placesOf(problems, race).map((place) => plainPlace(problems, place, folder)),
  };
}

/**
 * A problem as `--json` has it: an item of `problems`.
 * @param {Listing} listing @param {Listed} problem @param {number} index @param {{failing: Set<Listed>, lines: Set<Listed>}} sets @param {Folder|null} folder
 */
function plainProblem(listing, problem, index, { failing, lines }, folder) {
  const { name, look, words, isKnown, runs, orders, seen } = problem;
  const names = [...seen].map(([one, { runs: inRuns, orders: own }]) => ({ name: one, runs: inRuns, bothOrders: own === BOTH_ORDERS }));
  const races = listing.runs.flatMap((run, k) => (listing.problemOf(k, name)?.races || []).map((race) => plainRace(run, race, k, folder)));
  return {
    name,
    look: look.name,
    part: listing.partOf(problem),
    seen: look.seen,
    words,
    summary: listing.summaryOf(problem),
    recorded: listing.recordedOf(problem),
    fix: listing.fixOf(problem),
    rank: { number: index + 1, reason: listing.rankOf(problem).reason },
    isKnown,
    fails: failing.has(problem),
    hasLine: lines.has(problem),
    runs,
    bothOrders: orders.size > 1,
    names,
    races,
    ...replayOf(listing, problem),
  };
}

/**
 * What came of it in the other order, if it was run again.
 * @param {Listing} listing @param {Listed} problem
 */
function replayOf(listing, problem) {
  const found = listing.verdictOf(problem);
  if (!found) return {};
  const { race, verdict, effect, ownEffect = found.kind ? undefined : effect, from, sentence, words } = found;
  return { replay: { race, verdict, differs: !!effect, differsByItself: kindOf(found) === 'differs', effect, ownEffect, from, sentence, words } };
}

/**
 * The one object that `--json` prints. Called by index-task.js and outputs.js.
 * @param {Listing} listing @param {ListFacts} facts
 */
function plainListing(listing, { page, status, files, folder, loads }) {
  const sets = { failing: new Set(listing.failing()), lines: new Set(listing.lines) };
  return {
    races: 1,
    page,
    status,
    runs: listing.runs.length,
    files,
    ...(loads ? { loads } : {}),
    leftOut: listing.runs.map(({ leftOut }) => leftOut),
    ofLibraries: listing.runs.map(({ ofLibraries }) => ofLibraries),
    notComplete: listing.runs.map(({ notComplete }) => notComplete),
    unmarked: listing.runs.map(({ unmarked }) => unmarked),
    problems: listing.problems.map((problem, index) => plainProblem(listing, problem, index, sets, folder)),
    notSeen: listing.notSeen(),
  };
}

module.exports = { plainListing };
