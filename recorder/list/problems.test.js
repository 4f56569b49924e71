'use strict';
// The race of which a problem has its sentence and its sides.

const assert = require('node:assert');
const { test } = require('node:test');
const { lookOf } = require('./patterns/table.js');
const { Problems } = require('./problems.js');

/**
 * The race that is shown for a problem of two races in two groups, of which it leads only the first.
 * @param {[first: import('./patterns/table.js').LookKey, second: import('./patterns/table.js').LookKey]} looks of the races
 * @param {import('./patterns/table.js').LookKey} look of the problem
 */
function shownOf(looks, look) {
  const races = [{ group: 1, actions: [1, 2] }, { group: 2, actions: [3, 4] }];
  const facts = { leads: [0, 1], report: { races }, ofRaces: looks.map((one) => ({ look: lookOf(one), sites: ['', ''] })), inWords: { of: () => '' }, isOnePair: Problems.prototype.isOnePair };
  const problems = /** @type {Problems} */ (/** @type {unknown} */ (facts));
  return Problems.prototype.complete.call(problems, { name: 'n', races: [0, 1], groups: [0], look: lookOf(look), sites: ['', ''] }).first;
}

test('the race that is shown has the pattern of the problem, also if it leads no group', () => {
  assert.strictEqual(shownOf(['other', 'act'], 'act'), 1, 'a read that leads does not show what is overwritten');
  assert.strictEqual(shownOf(['act', 'act'], 'act'), 0);
  assert.strictEqual(shownOf(['other', 'other'], 'act'), 0);
});
