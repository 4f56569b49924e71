'use strict';
// The room for the places that a page gets of its own scripts in a suite's replay: their columns depend on its length.

const assert = require('node:assert');
const { test } = require('node:test');
const { LoadSteering } = require('./load-steering.js');

/** @typedef {import('../browser/responses/paused.js').Insertion} Insertion */

/** As long as addresses of applications are. */
const ADDRESS = `http://localhost/${'part/'.repeat(30)}page.html`;
const HTML = '<!doctype html><script>start();</script>';

/**
 * What a page gets whose script requests something by calls from so many places, all in the line into which it is put; and what was tried with it.
 * @param {number} calls
 */
function expectationsOf(calls) {
  /** @type {number[]} the lengths of what was put before the script */
  const lengths = [];
  const way = Array.from({ length: calls }, (_, k) => `${ADDRESS}:1:${30 + k}`).join('\n');
  const copyAt = () => ({
    copy: { changedPlaces: (/** @type {number} */ line, /** @type {number} */ column) => ({ line, from: column + lengths[lengths.length - 1], to: column + lengths[lengths.length - 1] }) },
  });
  const sources = { copyAt, tryInsertions: (/** @type {string} */ _, /** @type {Insertion[]} */ all) => { lengths.push(all.reduce((sum, { insert }) => sum + insert.length, 0)); } };
  const { withSpots, expectations } = LoadSteering.prototype;
  const steering = { forPage: () => [{ id: 1, word: 'set', nth: 1, place: `${ADDRESS}:1:30`, way }], load: { sources }, ownNames: { secret: 'x' }, withSpots };
  const insertions = expectations.call(/** @type {LoadSteering} */ (/** @type {unknown} */ (steering)), ADDRESS, HTML, [{ start: 0, end: 0, insert: '<!-- -->' }]);
  return { insert: insertions[0].insert, lengths };
}

for (const calls of [2, 8, 32]) {
  test(`the places of ${calls} calls fit, and are those in the page that has them`, () => {
    const { insert, lengths } = expectationsOf(calls);
    const last = lengths[lengths.length - 1];
    assert.strictEqual(insert.length + '<!-- -->'.length, last, 'it has the length with which the places were found');
    const [{ spots }] = JSON.parse(/\.expect\((.*), true\)/.exec(insert)?.[1] || '');
    assert.deepStrictEqual(spots.map((/** @type {{from: number}} */ { from }) => from), Array.from({ length: calls }, (_, k) => 30 + k + last));
    assert.ok(lengths.length <= 2, lengths.join(', '));
  });
}
