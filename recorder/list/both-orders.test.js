'use strict';
// The line `recorded` of a problem whose races came in both orders in one recording.

const assert = require('node:assert');
const { test } = require('node:test');
const { judgeLines } = require('../test/list-support.js');
const { plainListing } = require('./json.js');
const { Listing } = require('./listing.js');
const { Problems } = require('./problems.js');

/** @type {import('./types').Names} */
const NAMES = {
  files: [{ address: 'http://localhost/app.js', text: '\n' }], elements: { 1: { tag: 'button', id: 'go' } }, documents: {}, handlers: { 1: { type: 'click', target: 1 } },
  timeouts: {}, intervals: {}, requests: {}, dispatches: { 1: { type: 'click', act: 1000 }, 2: { type: 'click', act: 1001 } }, places: {}, objects: {},
};
/** @param {number} number */
const click = (number, runs = false) => [`fire ${number} 1 click`, 'r slot 1 click/1', ...runs ? [`run ${number} 0 1`, 'w var 0 y'] : [], `close ${number}`];

/**
 * What the list says of the recording of a late handler and some clicks.
 * @param {string[]} before
 * @param {string[]} after
 */
async function recordedOf(before, after) {
  const { text, report } = await judgeLines(['parse 0 1 plain', 'parse 0 2 async', ...before, 'exec 2', 'on 1', 'w slot 1 click/1', ...after]);
  const listing = new Listing([new Problems(text, NAMES, report)], null);
  const [line] = listing.problems.filter(({ look }) => look.look === 'late');
  const [, recorded] = listing.entryOf(line).details.find(([label]) => label === 'recorded') || [];
  const [{ bothOrders }] = plainListing(listing, { page: '', status: 1, files: [], folder: null }).problems.filter(({ name }) => name === line.name);
  return [recorded, bothOrders];
}

test('a handler that a click found, and an earlier one did not', async () => {
  assert.deepStrictEqual(await recordedOf(click(1), []), ['it came before the handler was set', false]);
  assert.deepStrictEqual(await recordedOf([], click(2, true)), ['the handler was there', false]);
  const [recorded, bothOrders] = await recordedOf(click(1), click(2, true));
  assert.match(String(recorded), /^both orders came; here (?:it came before the handler was set|the handler was there)$/);
  assert.strictEqual(bothOrders, true);
});

test('what the other order does is left out, since it came too', async () => {
  const { text, report } = await judgeLines(['parse 0 1 plain', 'parse 0 2 async', ...click(1), 'exec 2', 'on 1', 'w slot 1 click/1']);
  const listing = new Listing([new Problems(text, NAMES, report)], null);
  const [line] = listing.problems;
  const said = (/** @type {number[]} */ orders, /** @type {string} */ here) => listing.entries.recordedOf({ ...line, look: { ...line.look, here }, orders: new Set(orders) }, []);
  assert.strictEqual(said([1, 2], 'it was there, and in the other order nothing is found'), 'both orders came; here it was there');
  assert.strictEqual(said([1, 2], 'the update came first; in the other order it goes on from -1'), 'both orders came; here the update came first');
  assert.strictEqual(said([1], 'it was there, and in the other order nothing is found'), 'it was there, and in the other order nothing is found');
  assert.strictEqual(said([1, 2], ''), 'both orders came');
});
