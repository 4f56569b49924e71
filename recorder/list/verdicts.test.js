'use strict';
// What replays found, counted for the last lines.

const assert = require('node:assert');
const { test } = require('node:test');
const { countsInWords, kindOf, replaysInWords } = require('./verdicts.js');

/** @typedef {import('./types').Verdict} Verdict */

/** @type {(race: number, more: Partial<Verdict>) => [number, Verdict]} */
const verdict = (race, more) => [race - 1, { race, verdict: 'turned', words: '', ...more }];

test('what differs only by another race is counted apart', () => {
  assert.strictEqual(countsInWords(['differs', 'others', 'others', 'same']), '1 differs, 2 only by another race, 1 without a visible difference');
  assert.strictEqual(countsInWords(['differs', 'differs', 'not']), '2 differ, 1 could not be turned');
  assert.strictEqual(countsInWords(['same']), '0 differ, 1 without a visible difference');
});

test('the replays of a list, and how many of them lost only an event', () => {
  const event = { effect: 'a lost act', differences: [{ kind: 'event' }] };
  const found = new Map([verdict(1, { kind: 'differs', ...event }), verdict(2, { kind: 'others', effect: 'a lost input' }), verdict(3, { kind: 'differs', effect: 'a lost input', differences: [{ kind: 'field' }] })]);
  assert.strictEqual(replaysInWords([undefined, found]), '3 run again in the other order: 2 differ (1 only in which handlers run), 1 only by another race');
  assert.strictEqual(replaysInWords([new Map([verdict(1, { kind: 'differs', ...event })])]), '1 run again in the other order: 1 differs (only in which handlers run)');
  assert.strictEqual(replaysInWords([]), '');
});

test('a verdict of a suite has no kind', () => {
  assert.deepStrictEqual([{ verdict: 'turned', effect: 'x' }, { verdict: 'turned' }, { verdict: 'not turned' }, { verdict: 'turned', effect: 'x', kind: /** @type {const} */ ('others') }].map(kindOf), ['differs', 'same', 'not', 'others']);
});
