'use strict';
// Verdicts on races: the worst effect, and their order.

const assert = require('node:assert');
const { test } = require('node:test');
const { orderOfResults, worstOf } = require('./verdict.js');

test('the worst effect, and the order of the results', () => {
  /** @type {(kind: string, isOfUser?: boolean) => import('./types').Difference} */
  const difference = (kind, isOfUser = false) => ({ kind, isOfUser, subject: '', isSeen: true, recorded: '', other: '' });
  /** @type {(...differences: import('./types').Difference[]) => import('./types').Result} */
  const turned = (...differences) => ({ verdict: 'turned', differences, beside: [], unsteady: [], byDelay: [], astray: [] });
  /** @type {{number: number, result: import('./types').Result}[]} */
  const results = [
    { number: 1, result: turned() },
    { number: 2, result: { verdict: 'not turned', why: 'x' } },
    { number: 3, result: turned(difference('text')) },
    { number: 4, result: turned(difference('text'), difference('event', true)) },
    { number: 5, result: turned(difference('error'), difference('field', true)) },
  ];
  assert.deepStrictEqual(results.map(({ result }) => worstOf(result)?.name), [undefined, undefined, 'another content', 'a lost act', 'an uncaught error']);
  assert.deepStrictEqual([...results].sort(orderOfResults).map(({ number }) => number), [5, 4, 3, 2, 1]);
});
