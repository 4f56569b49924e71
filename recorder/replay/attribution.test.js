'use strict';
// From which race a difference comes, if several came in the other order in one run.

const assert = require('node:assert');
const { test } = require('node:test');
const { attribute, isOnlyOfOthers, ownOf, suspectsOf } = require('./attribution.js');
const { verdictInWords, verdictOf, worstOfOwn } = require('./verdict.js');

/** @typedef {import('./types').Difference} Difference */
/** @typedef {import('./types').Result} Result */
/** @typedef {import('./types').Turned} Turned */

/** @type {(kind: string, subject: string) => Difference} */
const difference = (kind, subject) => ({ kind, subject, isSeen: true, recorded: 'a', other: 'b', isOfUser: true });
const [KEY, OTHER_KEY] = [difference('event', 'the keydown at input: keys.js:2'), difference('event', 'the keydown at input: light.js:2')];
const [FIELD, PICTURE, HASH] = [difference('field', 'value of input'), difference('picture', 'the picture'), difference('hash', 'hash')];

/** @type {(number: number, differences: Difference[], turned: Turned, astray?: number[]) => {number: number, result: Result}} */
const result = (number, differences, turned, astray = []) => ({ number, result: { verdict: 'turned', differences, turned, astray } });
/** @param {{result: Result}} one */
const sources = ({ result: { differences = [] } }) => differences.map(({ from }) => from);

/** Race 1: a handler that only read. Race 2: so too. Race 3: at the field. */
const all = () => [
  result(1, [KEY, OTHER_KEY, FIELD, PICTURE], { races: [2, 3], readers: [1, 2], owners: [[1], [2], [3], []] }, [3]),
  result(3, [KEY, OTHER_KEY, FIELD, PICTURE], { races: [1, 2], readers: [1, 2], owners: [[1], [2], [3], []] }, [1, 2]),
];

test('what a handler that only read cannot do comes from the race that writes it, and its event stays its own', () => {
  const [reader, field] = all();
  attribute([reader, field]);
  assert.deepStrictEqual(sources(reader), [undefined, [2], [3], [3]]);
  assert.deepStrictEqual([verdictOf(reader.result), worstOfOwn(reader.result)?.name, isOnlyOfOthers(reader.result)], ['others', 'a lost act', true]);
  assert.deepStrictEqual(suspectsOf(reader.result), []);
  assert.match(verdictInWords(reader.result), /^turned: differs only by another race: value of input: .*; lost event in the other order: the keydown at input: keys\.js:2 has not run$/);
  assert.deepStrictEqual(sources(field), [[1], [2], undefined, undefined], 'its own is at what both sides write, so the events are those of the handlers');
  assert.deepStrictEqual([verdictOf(field.result), worstOfOwn(field.result)?.name, suspectsOf(field.result)], ['differs', 'a lost input', []]);
});

test('what another race does when it is reversed comes from there, if that is known', () => {
  const reader = result(1, [KEY, HASH], { races: [3], readers: [1], owners: [[1], []] });
  attribute([reader]);
  assert.deepStrictEqual([sources(reader), verdictOf(reader.result), suspectsOf(reader.result)], [[undefined, undefined], 'differs', [3]]);
  attribute([reader, result(3, [HASH], { races: [1], readers: [1], owners: [[]] })]);
  assert.deepStrictEqual([sources(reader), verdictOf(reader.result)], [[undefined, [3]], 'others']);
  attribute([reader, result(3, [HASH], { races: [1], readers: [1, 3], owners: [[]] })]);
  assert.deepStrictEqual([sources(reader), verdictOf(reader.result)], [[undefined, undefined], 'differs'], 'neither handler can do it, so it stays with both');
});

test('a race that may do anything keeps what another race writes, and the list says so', () => {
  const script = result(1, [KEY, FIELD], { races: [2, 3], readers: [2], owners: [[2], [3]] }, [3]);
  attribute([script]);
  assert.deepStrictEqual([sources(script), verdictOf(script.result), suspectsOf(script.result)], [[undefined, undefined], 'differs', [3]]);
});

test('a race without a difference of its own, and one that was not reversed', () => {
  const same = result(1, [], { races: [2], readers: [1], owners: [] });
  attribute([same, { number: 2, result: { verdict: 'not turned', why: 'x' } }]);
  assert.deepStrictEqual([verdictOf(same.result), ownOf(same.result)], ['same', []]);
});
