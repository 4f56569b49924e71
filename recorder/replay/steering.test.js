'use strict';
// The acts of a user in a run in which something is held back.

const assert = require('node:assert');
const { test } = require('node:test');
const { RunSteering } = require('./steering.js');

/** @typedef {import('./types').Act} Act */

/** @type {(number: number, facts?: {isEarly?: boolean, kind?: 'click'|'wait'}) => Act} */
const act = (number, { isEarly = false, kind = 'click' } = {}) => ({ number, isEarly, kind, target: '', text: '', said: '' });

test('an act that is held back comes after those that are needed', () => {
  const acts = { early: [act(1000, { isEarly: true })], late: [act(2000), act(3000)] };
  const numbers = (/** @type {{early: Act[], late: Act[]}} */ { early, late }) => [early, late].map((list) => list.map(({ number }) => number));
  /** @type {(held: number, after: number) => RunSteering} */
  const steering = (held, after) => new RunSteering([{ cause: { means: 'act', act: held, after, action: 1, words: '' }, due: null, needed: after }], [], 1);
  assert.deepStrictEqual(numbers(steering(1000, 2000).actions(acts)), [[], [2000, 1000, 3000]]);
  assert.deepStrictEqual(numbers(steering(2000, 0).actions(acts)), [[1000], [2000, 3000]]);
  const second = steering(2000, 0);
  assert.ok(second.blocks(act(2000)));
  assert.ok(!second.blocks(act(3000, { kind: 'wait' })));
});
