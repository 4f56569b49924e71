'use strict';
// Whether several races can be reversed in one run, and each then be looked at by itself.

const { splitBy } = require('./found/differences.js');
const { isOnePair } = require('./found/orders.js');

/** @typedef {Pick<import('./confirm.js').Claim, 'one'|'differences'>} Claim */
/**
 * What has to come before what in the recorded run, and how races came in other runs.
 * @typedef {Pick<import('./recorded.js').Recorded, 'waitsFor'|'hasToReverse'> & {orders: Pick<import('./found/orders.js').Orders, 'orderIn'>}} Order
 */

/** Differences that say nothing of where they come from: a picture shows what all of the races do. */
const OF_ALL = new Set(['picture', 'order of lines', 'focus', 'request', 'requests']);

/**
 * Whether no difference of one race can be taken for one of another race.
 * @param {Claim} one
 * @param {Claim} other
 */
function haveOtherDifferences(one, other) {
  const own = one.differences.filter(({ kind }) => !OF_ALL.has(kind));
  return own.length > 0 && !splitBy(own, other.differences).like.length;
}

/**
 * Whether what is held back for one race does not keep the second access of another race from coming.
 * @param {Claim} one
 * @param {Claim} other
 * @param {Order} order
 */
async function doesNotHold({ one: { reversal } }, { one: { reversal: { race } } }, order) {
  return !(await order.waitsFor(race.actions[1], reversal.cause)) && !(await order.hasToReverse(race, reversal.race));
}

/**
 * Whether a race was held in its recorded order in the run of another one.
 * @param {Claim['one']} one
 * @param {import('../races/types').Race} race
 */
const keeps = (one, race) => one.kept.some((hold) => isOnePair(hold.race, race));

/**
 * Whether two races wait for the same response, and each came in the other order too when the other one was reversed. A run that reverses both has the order
 * of their own runs, so it confirms both.
 * @param {Claim['one']} one
 * @param {Claim['one']} other
 * @param {Order} order
 */
function turnTogether(one, other, { orders }) {
  const [{ cause, race }, { cause: otherCause, race: otherRace }] = [one.reversal, other.reversal];
  const isOneHold = cause.means === 'response' && cause.words === otherCause.words && cause.nth === otherCause.nth;
  if (!isOneHold || isOnePair(race, otherRace) || keeps(one, otherRace) || keeps(other, race)) return false;
  return orders.orderIn(one.run, otherRace) === 'turned' && orders.orderIn(other.run, race) === 'turned';
}

/**
 * Whether a race can share runs with all of some others. Either they turn together; or it is apart from them: another thing is held back for it, by no act of
 * a user; it holds none of them, nor they it; and its differences are others. Called by confirm.js.
 * @param {Claim} claim
 * @param {Claim[]} others
 * @param {Order} order
 */
async function canShareWith(claim, others, order) {
  const { cause, race } = claim.one.reversal;
  if (cause.means === 'act') return false;
  for (const other of others) {
    const { reversal } = other.one;
    if (turnTogether(claim.one, other.one, order)) continue;
    if (reversal.cause.words === cause.words || isOnePair(race, reversal.race) || !haveOtherDifferences(claim, other)) return false;
    if (keeps(other.one, race) || keeps(claim.one, reversal.race)) return false;
    if (!(await doesNotHold(claim, other, order)) || !(await doesNotHold(other, claim, order))) return false;
  }
  return true;
}

module.exports = { canShareWith };
