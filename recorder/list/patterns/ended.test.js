'use strict';
// A callback that the other side clears, and races that look like it.

const assert = require('node:assert');
const { test } = require('node:test');
const { judgeLines } = require('../../test/list-support.js');
const { Listing } = require('../listing.js');
const { Problems } = require('../problems.js');
const { summaryOf } = require('../sides.js');

const X = 'var 0 state';

/**
 * The patterns and the sentences of the races of a timeout and a click at one variable.
 * @param {string[]} ofTimeout @param {string[]} ofClick
 * @param {{queue: string, ends: number}} cleared
 * @param {{[line: number]: string}} values
 */
async function problemsOf(ofTimeout, ofClick, cleared, values = {}) {
  const { text, report } = await judgeLines(['parse 0 1 plain', 'parse 0 2 inline', 'exec 2', 'set 1 50', 'set 2 60', 'on 1', 'timer 1', ...ofTimeout, 'timer 2', 'r var 0 other', 'fire 1 1 click', 'run 1 0 1', ...ofClick, 'close 1']);
  /** @type {import('../types').Names} */
  const names = { files: [{ address: 'http://a/app.js', text: '\n' }], elements: { 1: { tag: 'button', id: 'go' } }, documents: {}, handlers: { 1: { type: 'click', target: 1 }, 9: { isEmpty: true, ...cleared } },
    timeouts: { 1: { function: 'hint', place: [0, 5, 1] } }, intervals: {}, requests: {}, dispatches: { 1: { type: 'click', act: 1000 } }, objects: {}, places: { 14: [0, 9, 1] }, values };
  const listing = new Listing([new Problems(text, names, report)], null);
  return listing.told().map(({ line }) => `${line.look.name}: ${summaryOf(listing.entries.toldOf(line))}`);
}

const OF_TIMEOUT = { queue: 'timeout', ends: 1 };

test('a callback that code clears after it has run', async () => {
  const [one, ...rest] = await problemsOf([`w ${X}`], ['on 9', `w ${X}`], OF_TIMEOUT);
  assert.deepStrictEqual(rest, []);
  assert.match(one, /^ended callback: The timeout hint, scheduled at app\.js:5:1, may run before app\.js:9 clears it/);
  assert.match((await problemsOf([`r ${X}`], [`w ${X}`, 'on 9'], OF_TIMEOUT, { 9: 'o' }))[0], /^ended callback: /, 'the order in the code that clears it is nothing');
});

test('what looks like it: another callback is cleared, and code that needs what the callback writes', async () => {
  assert.match((await problemsOf([`w ${X}`], ['on 9', `w ${X}`], { queue: 'timeout', ends: 2 }))[0], /^overwritten act: /);
  assert.match((await problemsOf([`w ${X}`], ['on 9', `w ${X}`], { queue: 'interval', ends: 1 }))[0], /^overwritten act: /, 'intervals have numbers of their own');
  assert.match((await problemsOf([`w ${X}`], ['on 9', `r ${X}`], OF_TIMEOUT, { 9: 'o', 15: 'o' }))[0], /^use before definition: /);
});
