'use strict';
// Whether the two accesses of a race came in the other order in a run, and if not, why.

const { called } = require('../common/called.js');
const { inAnyRun } = require('../common/request-address.js');
const { judgeWithin } = require('../races/within-limits.js');

/** @typedef {import('./types').FurtherRun} FurtherRun */
/** @typedef {import('./types').Reversal} Reversal */

/**
 * Why a hold did not reverse its race, in words.
 * @param {import('./hold.js').Hold} hold
 */
function whyNot(hold) {
  if (!hold.heldAt) return 'it was not met again';
  return hold.isReached ? 'the first access came before all the same' : 'the second access did not come meanwhile';
}

/**
 * Judges the order of a race's two accesses in a run. The analyzer says whether they race there too. Called by confirm.js, in-order.js and suite-replays.js.
 * @param {FurtherRun} run
 * @param {import('./hold.js').Hold} hold of the race's cause
 * @param {Reversal} reversal
 * @returns {Promise<import('./types').JudgedRun>}
 */
async function judgeReversal(run, hold, { sides, isLoose }) {
  const keys = isLoose ? run.keys.loose() : run.keys;
  const [first, access] = [keys.find(sides[0]), keys.find(sides[1])];
  const second = access || keys.findAction(sides[1]);
  if (!second) return { isTurned: false, isLate: true, why: 'the second access did not come meanwhile' };
  if (first && first.line < second.line) return { isTurned: false, isLate: !hold.isReached, why: whyNot(hold) };
  if (!first && !hold.isReached) return { isTurned: false, why: whyNot(hold) };
  const notes = [first ? '' : 'the access that was recorded first did not come any more', access ? '' : 'what was recorded second came first, and without this access'];
  if (!first || !access) return { isTurned: true, isListed: false, note: notes.filter(Boolean).join('; ') };
  return judgeRace(run, [second.action, first.action], second.line);
}

/**
 * Whether the analyzer lists two actions of a run as a race.
 * @param {FurtherRun} run
 * @param {[number, number]} pair
 * @param {number} line of one of the two accesses
 * @returns {Promise<import('./types').JudgedRun>}
 */
async function judgeRace(run, pair, line) {
  const { report, fault, leftOut } = await judgeWithin(run.file);
  if (!report || fault || report.refused) return { isTurned: false, why: `the analyzer gave no report of this run: ${fault || report?.refused?.cause}` };
  if (report.races.some((race) => race.actions.join(' ') === pair.join(' '))) return { isTurned: true, isListed: true, pair, note: '' };
  const location = run.keys.actions.lines[line - 1].slice(2);
  const note = leftOut.some((one) => one.location === location)
    ? 'in this run the accesses there are over the limits of the analyzer, so they were left out'
    : `in this run the rules order them: ${called('er_view')} ${run.file} --why ${pair.join(' ')}`;
  return { isTurned: true, isListed: false, pair, note };
}

/**
 * What is held back, as a run that was not reversed has it: of several requests at one place in the code another one can be the right one. Null if it is the
 * same. Called by replay.js.
 * @param {import('./recorded.js').Recorded} recorded
 * @param {FurtherRun} run
 * @param {Reversal} reversal
 * @returns {import('./types').Cause|null}
 */
function countedIn(recorded, run, { cause, sides: [side], isLoose }) {
  const keys = isLoose ? run.keys.loose() : run.keys;
  const there = keys.find(side) || keys.findAction(side);
  const causes = there ? recorded.causesIn(run).of(there.action) : [];
  const isOfAddress = (/** @type {import('./types').Cause} */ { address }) => address === cause.address || inAnyRun(address || '') === inAnyRun(cause.address || '');
  const found = causes.find((one) => one.means === cause.means && one.word === cause.word && one.place === cause.place && isOfAddress(one));
  const isSame = !found || (found.nth === cause.nth && found.way === cause.way && found.event?.nth === cause.event?.nth);
  return isSame ? null : { ...found, action: cause.action, words: cause.words };
}

module.exports = { judgeReversal, countedIn };
