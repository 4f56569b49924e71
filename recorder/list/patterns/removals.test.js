'use strict';
// A handler that code removes: an event before the removal finds it, and no author has to change that.

const assert = require('node:assert');
const { test } = require('node:test');
const { judgeLines } = require('../../test/list-support.js');
const { Listing } = require('../listing.js');
const { Problems } = require('../problems.js');
const { summaryOf } = require('../sides.js');

const SLOT = 'slot 1 click/1';

/**
 * The pattern, the verbs and the sentence of each problem of a page whose script registers a handler, with a click and a timeout.
 * @param {string[]} beforeClick @param {string[]} ofTimeout what the timeout does
 */
async function problemsOf(beforeClick, ofTimeout) {
  const { text, report } = await judgeLines(['parse 0 1 plain', 'parse 0 2 inline', 'exec 2', ...beforeClick, 'set 1 900',
    'fire 1 1 click', `r ${SLOT}`, 'run 1 0 1', 'w var 0 state', 'close 1', 'timer 1', ...ofTimeout]);
  /** @type {import('../types').Names} */
  const names = { files: [{ address: 'http://a/page.html', text: '\n' }], elements: { 1: { tag: 'button', id: 'go' } }, documents: {}, handlers: { 1: { type: 'click', target: 1 } }, timeouts: {}, intervals: {}, requests: {},
    dispatches: { 1: { type: 'click', act: 1000 } }, objects: {}, places: {} };
  const listing = new Listing([new Problems(text, names, report)], null);
  return listing.told().map(({ line }) => ({ pattern: line.look.name, verbs: listing.entries.toldOf(line).sides.map(({ verb }) => verb), sentence: summaryOf(listing.entries.toldOf(line)) }));
}

test('a click before the removal of its handler is not lost; before its registration, it is', async () => {
  const [registered, removed, ...rest] = await problemsOf(['on 1', `w ${SLOT}`], [`w ${SLOT}`]);
  assert.deepStrictEqual(rest, []);
  assert.deepStrictEqual([registered.pattern, removed.pattern], ['late handler', 'other']);
  assert.deepStrictEqual([registered.verbs, removed.verbs], [['registers', 'click at'], ['click at', 'removes']]);
  assert.match(removed.sentence, /^The timeout may remove the handler before or after a click at button#go/);
});

test('what looks like it: a second registration has a number of its own', async () => {
  const verbs = (await problemsOf(['on 1', `w ${SLOT}`], ['on 2', 'w slot 1 click/2'])).flatMap((one) => one.verbs);
  assert.ok(!verbs.includes('removes'), String(verbs));
});
