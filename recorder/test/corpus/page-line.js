'use strict';
// The line of one page, put together of what the calls said (calls.js) and of what they wrote (measure.js).

/**
 * @typedef {import('./types').Costs} Costs
 * @typedef {import('./types').DoneLine} DoneLine
 * @typedef {import('./types').Ended} Ended
 * @typedef {import('./types').Facts} Facts
 * @typedef {import('./types').FailedLine} FailedLine
 * @typedef {import('./types').KnownPage} KnownPage
 * @typedef {import('./types').Loads} Loads
 * @typedef {import('./types').Measured} Measured
 * @typedef {import('./types').RecordedBoth} RecordedBoth
 * @typedef {import('./types').RunMeasured} RunMeasured
 * @typedef {import('./types').RunOfLine} RunOfLine
 */

/**
 * What a run with the recorder threw, and no run without it.
 * @param {RecordedBoth} run
 * @param {RecordedBoth[]} runs
 */
function errorsAlone({ errors }, runs) {
  const known = new Set(runs.flatMap(({ plain }) => plain.errors));
  return errors.filter((error) => !known.has(error));
}

/**
 * Why a recording has nothing to show, or ''.
 * @param {RecordedBoth} run
 * @param {RunMeasured} figures
 */
function nothingOf(run, figures) {
  if (run.failure !== undefined) return `status ${run.status}: ${run.failure}`;
  if (figures.failure !== undefined) return figures.failure;
  return figures.actions > 1 ? '' : 'no action but the first';
}

/**
 * @param {RecordedBoth} run
 * @param {RunMeasured} figures
 * @param {RecordedBoth[]} runs
 * @returns {RunOfLine}
 */
function runOf(run, figures, runs) {
  const { status, seconds, load, errors, notRecorded, notDone, plain } = run;
  return {
    status, seconds, load, loadWithout: plain.load, errors: errors.length, errorsWithout: plain.errors.length, alone: errorsAlone(run, runs), notRecorded, notDone,
    nothing: nothingOf(run, figures), ...figures,
  };
}

/**
 * @param {KnownPage} entry
 * @param {{runs: RecordedBoth[], loads: Loads, replay: Ended, costs: Costs|null, measured: Measured}} found
 * @param {Facts} facts
 * @returns {DoneLine}
 */
function lineOf(entry, { runs, loads, replay, costs, measured }, facts) {
  const { problems, replays } = measured;
  return {
    ...entry,
    ...facts,
    runs: runs.map((run, k) => runOf(run, measured.runs[k], runs)),
    loads,
    program: costs,
    replay: { ...replay, races: replays },
    problems,
  };
}

/**
 * The line of a page at which something failed that is none of the page's.
 * @param {KnownPage} entry
 * @param {unknown} fault
 * @param {Facts} facts
 * @returns {FailedLine}
 */
const failedLine = (entry, fault, facts) => ({ ...entry, ...facts, failure: String(fault instanceof Error ? fault.message || fault : fault).slice(0, 500) });

module.exports = { lineOf, failedLine };
