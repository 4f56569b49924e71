'use strict';
// What the list calls the callbacks of a race's two sides.

const assert = require('node:assert');
const { test } = require('node:test');
const { judgeLines } = require('../test/list-support.js');
const { Listing } = require('./listing.js');
const { linesOf } = require('./outputs.js');
const { Problems } = require('./problems.js');

/** @typedef {import('./types').Names} Names */

/** @type {Names} */
const NAMES = {
  files: [{ address: 'http://localhost/page.html', text: '<p>\n$(function () {\n  total = 1;\n' }, { address: 'http://localhost/jquery.js', text: '\n', isLibrary: true }],
  elements: {}, documents: {}, handlers: {}, timeouts: {}, intervals: {}, requests: {}, dispatches: {}, objects: {}, places: {}, values: {}, functions: {},
};

/**
 * The lines of the list for a trace.
 * @param {string[]} lines
 * @param {Partial<Names>} facts
 */
async function listOf(lines, facts) {
  const { text, report } = await judgeLines(lines);
  return linesOf(new Listing([new Problems(text, { ...NAMES, ...facts }, report)], null));
}

test('a timeout that jQuery sets for a callback of its ready is called so, with the place of the page\'s call', async () => {
  const lines = ['parse 0 1 inline', 'exec 1', 'set 2 9', 'set 1 0', 'timer 1', 'w var 0 total', 'timer 2', 'w var 0 total'];
  /** @type {Partial<Names>} */
  const facts = { places: { 4: [0, 2, 1], 5: [1, 1, 1], 7: [1, 1, 9] }, timeouts: { 1: { place: [1, 1, 1], function: 'process', ready: [0, 2, 1] }, 2: { place: [0, 2, 1] } } };
  const [head, first] = await listOf(lines, facts);
  assert.match(head, /^page\.html:2 {2}/);
  assert.match(first, / callback of jQuery's ready, registered at page\.html:2:1$/);
  const { ready, ...timeout } = facts.timeouts?.[1] || {};
  assert.match((await listOf(lines, { ...facts, timeouts: { ...facts.timeouts, 1: timeout } }))[1], / timeout process, scheduled at jquery\.js:1:1$/, String(ready));
});

test('a handler that hears of a file is called by it, and runs of one callback are told apart', async () => {
  const lines = ['parse 0 1 inline', 'exec 1', 'new 0 2 async', 'new 0 3 async', 'on 1', 'on 2', 'exec 2', 'exec 3', 'fire 1 2 load', 'run 1 0 1', 'w var 0 total', 'close 1', 'fire 2 3 load', 'run 2 0 2', 'w var 0 total', 'close 2'];
  /** @type {Partial<Names>} */
  const facts = { elements: { 2: { tag: 'script', source: 'a.js' }, 3: { tag: 'script', source: 'b.js' } }, handlers: { 1: { type: 'load', place: [0, 2, 1] }, 2: { type: 'load', place: [0, 2, 1] } }, places: { 12: [0, 3, 3], 16: [0, 3, 3] } };
  const [head, first, second] = await listOf(lines, facts);
  assert.match(head, /`total` keeps what is written last, by the load handler of b\.js or by the load handler of a\.js/);
  assert.match(first, / load handler of a\.js, registered at page\.html:2:1$/);
  assert.match(second, / load handler of b\.js, registered at page\.html:2:1$/);
  const alike = await listOf(lines, { ...facts, elements: {} });
  assert.match(alike[0], /by one run of the load handler at page\.html:2:1 or by another one/);
});

test('two elements with one id both stay', async () => {
  const lines = ['parse 0 1 async', 'parse 0 2 async', 'exec 1', 'w elem 0 node', 'exec 2', 'w elem 0 node'];
  const [head] = await listOf(lines, { elements: { 1: { tag: 'script', source: 'a.js' }, 2: { tag: 'script', source: 'b.js' } } });
  assert.match(head, /The script b\.js may add or change `#node` before or after the script a\.js does/);
});

test('an access in a library has the place of the page\'s own call that led to it', async () => {
  const lines = ['parse 0 1 inline', 'exec 1', 'set 2 9', 'set 1 0', 'timer 1', 'w var 0 total', 'timer 2', 'w var 0 total'];
  /** @type {Partial<Names>} */
  const facts = { places: { 4: [0, 2, 1], 5: [0, 2, 1], 7: [1, 1, 9], 9: [1, 1, 9] }, callers: { 7: [0, 3, 3] }, timeouts: { 1: { place: [0, 2, 1] }, 2: { place: [0, 2, 1] } } };
  const [head, first, second] = await listOf(lines, facts);
  assert.match(head, /^page\.html:3 {2}/);
  assert.match(first, / page\.html:3:3 /);
  assert.match(second, / jquery\.js:1:9 | page\.html:2:1 /);
});
