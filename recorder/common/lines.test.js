'use strict';
// Lines and columns, by each of the signs that end a line.

const assert = require('node:assert');
const { test } = require('node:test');
const { Lines, splitLines, LINE_END_OF_SCRIPT } = require('./lines.js');

test('each end of a line', () => {
  const text = 'a\nb\rc\r\nd\u2028e\u2029f';
  assert.deepStrictEqual(splitLines(text), ['a', 'b', 'c', 'd\u2028e\u2029f']);
  const places = (/** @type {Lines} */ lines) => ['b', 'c', 'd', 'e', 'f'].map((sign) => lines.placeOf(text.indexOf(sign)).line);
  assert.deepStrictEqual(places(new Lines(text)), [2, 3, 4, 4, 4]);
  assert.deepStrictEqual(places(new Lines(text, LINE_END_OF_SCRIPT)), [2, 3, 4, 5, 6]);
  assert.strictEqual(new Lines(text, LINE_END_OF_SCRIPT).offsetOf(5, 1), text.indexOf('e'));
  assert.strictEqual(new Lines(text).offsetOf(99, 99), text.length);
});
