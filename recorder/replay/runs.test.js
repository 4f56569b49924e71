'use strict';
// How many runs of a page go on at once.

const assert = require('node:assert');
const { test } = require('node:test');
const { runsAtOnce } = require('./runs.js');

test('how many runs go on at once', () => {
  /** @type {(lines: number, asked?: string[], options?: {atOnce?: number}) => number} */
  const atOnce = (lines, asked = [], options = {}) => runsAtOnce(options, { responses: { asked }, intake: { entries: Array(lines) } }, 4);
  assert.deepStrictEqual([0, 300, 50000, 60000, 100000, 900000].map((lines) => atOnce(lines)), [4, 4, 4, 3, 2, 1]);
  assert.strictEqual(atOnce(300, ['GET http://localhost/', 'POST http://localhost/cart']), 1);
  assert.strictEqual(atOnce(900000, ['POST http://localhost/cart'], { atOnce: 3 }), 3);
});
