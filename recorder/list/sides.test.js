'use strict';
// Two sides that do the same are told apart by the files that they are about; by numbers only if these are the same.

const assert = require('node:assert');
const { test } = require('node:test');
const { Listing } = require('./listing.js');
const { Problems } = require('./problems.js');
const { judgeLines } = require('../test/list-support.js');

/** @typedef {import('./types').Names} Names */

/** @type {Names} */
const NAMES = { files: [{ address: 'http://a/page.html' }, { address: 'http://a/loader.js' }], elements: {}, documents: {}, handlers: {}, timeouts: {}, intervals: {}, requests: {}, dispatches: {}, objects: {}, places: {} };
/** @type {[number, number, number]} */
const PLACE = [1, 20, 5];

/**
 * Who acts on the two sides of the only problem.
 * @param {string[]} lines
 * @param {Partial<Names>} facts
 */
async function actorsOf(lines, facts) {
  const { text, report } = await judgeLines(lines);
  const listing = new Listing([new Problems(text, { ...NAMES, ...facts }, report)], null);
  const [{ line, others }] = listing.told();
  assert.strictEqual(others.length, 0);
  return listing.entryOf(line).sides.map(({ actor }) => actor);
}

/** A loader makes two scripts, and hears of their load. */
const LOADER = ['parse 0 1 inline', 'exec 1', 'new 0 2 async', 'new 0 3 async', 'on 1', 'on 2', 'exec 2', 'eload 1 2', 'run 1 0 1', 'w var 0 x', 'close 1', 'exec 3', 'eload 2 3', 'run 2 0 2', 'w var 0 x', 'close 2'];
const HEARD = { handlers: { 1: { type: 'load', place: PLACE }, 2: { type: 'load', place: PLACE } }, places: { 11: PLACE, 16: PLACE } };

test('load handlers of two scripts that code made at one place', async () => {
  const scripts = (/** @type {string} */ one, /** @type {string} */ other) => ({ 2: { tag: 'script', source: one, loads: `http://a/${one}`, place: PLACE }, 3: { tag: 'script', source: other, loads: `http://a/${other}`, place: PLACE } });
  assert.deepStrictEqual(await actorsOf(LOADER, { ...HEARD, elements: scripts('a.js', 'b.js') }), ['load handler of a.js, registered at loader.js:20:5', 'load handler of b.js, registered at loader.js:20:5']);
  assert.deepStrictEqual(await actorsOf(LOADER, { ...HEARD, elements: scripts('a.js', 'a.js') }), ['load handler of a.js, registered at loader.js:20:5, run 1', 'load handler of a.js, registered at loader.js:20:5, run 2']);
});

test('two scripts of a page without a file, and replies of two folders', async () => {
  const scripts = { 2: { tag: 'script', place: /** @type {[number, number, number]} */ ([0, 3, 1]) }, 3: { tag: 'script', place: /** @type {[number, number, number]} */ ([0, 9, 1]) } };
  assert.deepStrictEqual(await actorsOf(['parse 0 2 async', 'parse 0 3 async', 'exec 2', 'w var 0 x', 'exec 3', 'w var 0 x'], { elements: scripts }), ['script at page.html:3:1', 'script at page.html:9:1']);
  const replies = ['parse 0 1 inline', 'exec 1', 'send 1', 'send 2', 'reply 1 1', 'w var 0 x', 'close 1', 'reply 2 2', 'w var 0 x', 'close 2'];
  const requests = { 1: { address: 'http://a/one/data.json', place: PLACE }, 2: { address: 'http://a/two/data.json', place: PLACE } };
  assert.deepStrictEqual(await actorsOf(replies, { requests }), ['reply of /one/data.json, requested at loader.js:20:5', 'reply of /two/data.json, requested at loader.js:20:5']);
});

test('a property whose name no code can write after a dot', async () => {
  const objects = { 3000000: { made: 'object', text: 'seen' } };
  const { text, report } = await judgeLines(['parse 0 1 async', 'parse 0 2 async', 'exec 1', 'w var 3000000 Europe%20(EU27)', 'exec 2', 'w var 3000000 Europe%20(EU27)']);
  const listing = new Listing([new Problems(text, { ...NAMES, objects, elements: { 1: { tag: 'script', source: 'a.js' }, 2: { tag: 'script', source: 'b.js' } } }, report)], null);
  assert.strictEqual(listing.entryOf(listing.told()[0].line).sentence, '`seen["Europe (EU27)"]` keeps what is written last, by the script b.js or by the script a.js');
});

test('handlers of two images that code made at one place', async () => {
  const pings = ['parse 0 1 inline', 'exec 1', 'new 0 2 plain', 'new 0 3 plain', 'on 1', 'on 2', 'set 1 0', 'set 2 0', 'timer 1', 'fire 1 2 ping', 'run 1 0 1', 'w var 0 x', 'close 1', 'timer 2', 'fire 2 3 ping', 'run 2 0 2', 'w var 0 x', 'close 2'];
  const images = { 2: { tag: 'img', source: 'a.png', place: PLACE }, 3: { tag: 'img', source: 'b.png', place: PLACE } };
  const handlers = { 1: { type: 'ping', place: PLACE }, 2: { type: 'ping', place: PLACE } };
  assert.deepStrictEqual(await actorsOf(pings, { elements: images, handlers, places: { 13: PLACE, 18: PLACE } }), ['ping handler of a.png, registered at loader.js:20:5', 'ping handler of b.png, registered at loader.js:20:5']);
});
