'use strict';
// Tests of work done several pieces at once.

const assert = require('node:assert');
const { test } = require('node:test');
const { AtOnce, allOf, eachAtOnce } = require('./at-once.js');

test('each item is worked on, no more than so many at once, and the results are in the order of the items', async () => {
  let [now, most] = [0, 0];
  const work = async (/** @type {number} */ time) => {
    most = Math.max(most, ++now);
    await new Promise((resolve) => { setTimeout(resolve, time); });
    now--;
    return time * 2;
  };
  assert.deepStrictEqual(await eachAtOnce([30, 5, 10, 1], 2, work), [60, 10, 20, 2]);
  assert.strictEqual(most, 2);
  assert.deepStrictEqual(await eachAtOnce([], 2, work), []);
});

test('an error of one item is the error of all', async () => {
  await assert.rejects(eachAtOnce([1, 2], 1, async (one) => { throw new Error(`lost ${one}`); }), /lost 1/);
});

test('so many runs at once, those of the first race first', async () => {
  const slots = new AtOnce(2);
  /** @type {Map<number, {resolve: (rank: number) => void, reject: (error: Error) => void}>} */
  const ends = new Map();
  /** @type {number[]} */
  const began = [];
  /** @type {(rank: number) => Promise<number>} */
  const work = (rank) => slots.do(rank, () => new Promise((resolve, reject) => { began.push(rank); ends.set(rank, { resolve, reject }); }));
  const all = [5, 4, 3, 1, 2].map((rank) => work(rank).catch((fault) => fault.message));
  const settle = () => new Promise((resolve) => { setImmediate(resolve); });
  await settle();
  assert.deepStrictEqual(began, [5, 4]);
  ends.get(4)?.reject(new Error('lost'));
  await settle();
  assert.deepStrictEqual(began, [5, 4, 1]);
  for (const rank of [5, 1, 2, 3]) {
    ends.get(rank)?.resolve(rank);
    await settle();
  }
  assert.deepStrictEqual(began, [5, 4, 1, 2, 3]);
  assert.deepStrictEqual(await Promise.all(all), [5, 'lost', 3, 1, 2]);
  assert.strictEqual(slots.count, 0);
});

test('of several that fail the first tells why, unless it was only stopped', async () => {
  let isOver = false;
  const late = new Promise((resolve) => { setTimeout(() => { isOver = true; resolve(2); }, 20); });
  const fails = (/** @type {string} */ message) => Promise.reject(new Error(message));
  await assert.rejects(allOf([fails('stopped'), late, fails('lost')], (error) => error instanceof Error && error.message === 'stopped'), /lost/);
  assert.ok(isOver);
  await assert.rejects(allOf([fails('stopped')], () => true), /stopped/);
  assert.deepStrictEqual(await allOf([1, late]), [1, 2]);
});
