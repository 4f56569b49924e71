'use strict';
// Tests of which races can be reversed in one run.

const assert = require('node:assert');
const { test } = require('node:test');
const { canShareWith } = require('./independent.js');

/** @typedef {import('./independent.js').Claim} Claim */

/**
 * A race whose first action is held back, with a difference.
 * @param {[number, number]} actions
 * @param {string} subject
 * @param {object} more of its cause
 * @returns {Claim}
 */
function claim(actions, subject, more = {}) {
  const race = { actions, lines: actions, modes: 'wr', location: 'var 0 x', group: 1 };
  const side = { key: '', nth: 1, mode: 'r', kind: 'var', name: 'x', isLookUp: false, actionKey: '', nthAction: 1 };
  const cause = { means: /** @type {const} */ ('callback'), action: actions[0], words: `${actions[0]} is put off`, ...more };
  const difference = { kind: 'text', subject, isSeen: true, recorded: subject, other: 'none' };
  const reversal = { cause, race, sides: /** @type {[typeof side, typeof side]} */ ([side, side]), isLoose: false, needed: 0 };
  const one = /** @type {Claim['one']} */ (/** @type {unknown} */ ({ reversal, kept: [], astray: [] }));
  return { one, differences: [difference, { ...difference, kind: 'picture', subject: 'the picture' }] };
}

/** @param {[action: number, cause: number][]} waits the actions that wait for a cause */
const orderOf = (waits = [], /** @type {'turned'|'kept'} */ order = 'kept') => ({
  orders: { orderIn: () => order },
  waitsFor: async (/** @type {number} */ action, /** @type {{action: number}} */ cause) => waits.some(([one, other]) => one === action && other === cause.action),
  hasToReverse: async () => false,
});

test('races of different things share a run', async () => {
  assert.ok(await canShareWith(claim([1, 2], 'tea'), [claim([3, 4], 'milk')], orderOf()));
  assert.ok(await canShareWith(claim([1, 2], 'tea'), [], orderOf()));
});

test('races do not share a run if their differences could be confused, whatever the numbers in them', async () => {
  assert.ok(!await canShareWith(claim([1, 2], 'tea 1'), [claim([3, 4], 'tea 2')], orderOf()));
});

test('races do not share a run if one keeps the other from coming, in either direction', async () => {
  assert.ok(!await canShareWith(claim([1, 2], 'tea'), [claim([3, 4], 'milk')], orderOf([[2, 3]])));
  assert.ok(!await canShareWith(claim([1, 2], 'tea'), [claim([3, 4], 'milk')], orderOf([[4, 1]])));
});

test('races that wait for one response share a run if each came in the other order with the other one', async () => {
  const response = { means: 'response', words: 'the response of shop.js is put off', nth: 1 };
  const [one, other] = [claim([1, 2], 'tea', response), claim([1, 4], 'tea', response)];
  assert.ok(await canShareWith(one, [other], orderOf([], 'turned')));
  assert.ok(!await canShareWith(one, [other], orderOf([], 'kept')));
  assert.ok(!await canShareWith(one, [claim([1, 4], 'tea', { ...response, nth: 2 })], orderOf([], 'turned')));
  assert.ok(!await canShareWith(claim([1, 2], 'tea'), [claim([1, 4], 'tea')], orderOf([], 'turned')));
});

test('races do not share a run if one thing is held back for both, or an act of the user', async () => {
  assert.ok(!await canShareWith(claim([1, 2], 'tea'), [claim([1, 4], 'milk')], orderOf()));
  assert.ok(!await canShareWith(claim([1, 2], 'tea', { means: 'act' }), [], orderOf()));
});
