'use strict';
// What differs at the ends of two runs.

const assert = require('node:assert');
const { test } = require('node:test');
const { keysOf } = require('../../test/keys-support.js');
const { compare, someInWords } = require('./compare.js');

/** @typedef {import('./end-state.js').End} End */

/** @type {(more: Partial<End>) => End} */
const end = (more) => ({ isKnown: true, picture: null, errors: [], consoleErrors: [], dialogs: [], lines: ['a', 'b'], ids: [], fields: {}, storage: {}, variables: {}, requests: [], title: '', hash: '', focus: '', isLoaded: true, ...more });

test('a handler that only orders others is no difference', () => {
  const lines = ['parse 0 2 plain', 'on 1', 'on 2', 'fire 1 2 click', 'run 1 0 1', 'run 1 0 2', 'close 1'];
  const ran = (/** @type {string} */ left) => keysOf(lines.filter((line) => line !== left), {}, { handlers: { 1: { type: 'click', target: 2 }, 2: { type: 'the code that enabled it', isEmpty: true } }, dispatches: { 1: { type: 'click', act: 1 } } });
  const differ = (/** @type {string} */ left) => compare({ end: end({}), keys: ran('') }, { end: end({}), keys: ran(left) }).map(({ kind }) => kind);
  assert.deepStrictEqual([differ('run 1 0 1'), differ('run 1 0 2')], [['event'], []]);
});

test('what differs at two ends', () => {
  const keys = keysOf(['parse 0 2 inline']);
  const differ = (/** @type {Partial<End>} */ a, /** @type {Partial<End>} */ b) => someInWords(compare({ end: end(a), keys }, { end: end(b), keys }), ['one', 'two']);
  assert.deepStrictEqual(differ({}, {}), []);
  assert.deepStrictEqual(differ({ lines: ['a', 'b'] }, { lines: ['b', 'a'] }), ['the order of the lines: a in one, b in two']);
  assert.deepStrictEqual(differ({ errors: ['x'] }, { lines: ['a'] }), ['error in one alone: x', 'text in one alone: "b"']);
  assert.deepStrictEqual(differ({ variables: { n: '1' } }, { variables: { n: '2' } }), ['n: 1 in one, 2 in two']);
  assert.deepStrictEqual(differ({ errors: ['x', 'x'] }, {}), ['error in one alone: x (2 times)']);
});
