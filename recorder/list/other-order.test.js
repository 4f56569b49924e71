'use strict';
// The line `recorded`, and the change of a problem without a known harm.

const assert = require('node:assert');
const { test } = require('node:test');
const { Listing } = require('./listing.js');
const { linesOf } = require('./outputs.js');
const { Problems } = require('./problems.js');
const { judgeLines } = require('../test/list-support.js');

/** @typedef {import('./types').Names} Names */
/** @typedef {import('./types').Place} Place */

/** @type {Names} */
const NAMES = {
  files: [{ address: 'http://a/page.html', text: 'x = [];\nx += 1;\nx = { a: 1 };\nread(x);\n' }], elements: { 1: { tag: 'button', id: 'go' }, 2: { tag: 'script', source: 'a.js' } }, documents: {}, intervals: {}, requests: {}, objects: {},
  handlers: { 1: { type: 'click', target: 1, place: [0, 1, 1] } }, timeouts: { 1: { function: 'soon', place: [0, 1, 1] }, 2: { function: 'late', place: [0, 2, 1] } }, dispatches: { 1: { type: 'click', act: 1000 } }, places: {},
};
const START = ['parse 0 1 plain', 'parse 0 2 inline', 'exec 2', 'w var 0 x', 'on 1', 'send 1', 'send 2', 'set 1 1', 'set 2 0'];
/** The line of the trace after those of START and the one before it. */
const FIRST = 1 + START.length + 2;

/**
 * The entries of a page on which two pieces of code have a race, each with its start, what it does, and its end.
 * @param {string[][]} pieces @param {Place[]} places of what the second line of each does
 * @param {Partial<Names>} facts
 */
async function entriesOf(pieces, places, facts = {}) {
  const lines = [...START, ...pieces.flat()];
  const at = pieces.map((_, k) => START.length + pieces.slice(0, k).flat().length + 1 + pieces[k].findIndex((line) => /^[rw] /.test(line)) + 1);
  const { text, report } = await judgeLines(lines);
  const listing = new Listing([new Problems(text, { ...NAMES, places: Object.fromEntries(places.map((place, k) => [at[k], place])), ...facts }, report)], null);
  return listing.told().map(({ line, others }) => {
    const { details, sides, sentence } = listing.entryOf(line, others);
    return { sentence, what: sides.map(({ what }) => what), recorded: details.find(([label]) => label === 'recorded')?.[1], fix: details.find(([label]) => label === 'fix')?.[1], lines: linesOf(listing) };
  });
}

const timer = (/** @type {number} */ number, /** @type {string} */ access) => [`timer ${number}`, `${access} var 0 x`];
const reply = (/** @type {number} */ number, /** @type {string} */ access) => [`reply ${number} ${number}`, `${access} var 0 x`, `close ${number}`];
const click = (/** @type {string} */ access) => ['fire 3 1 click', 'run 3 0 1', `${access} var 0 x`, 'close 3'];
const CLICK = { dispatches: { 3: { type: 'click', act: 1000 } } };

test('what is written, which side came first, what the other order does, and a change', async () => {
  const [read] = await entriesOf([timer(2, 'r'), timer(1, 'w')], [[0, 4, 6], [0, 1, 1]]);
  assert.deepStrictEqual([read.what, read.recorded], [['x', 'x = []'], 'the timeout late came first; in the other order the timeout late reads what the timeout soon writes']);
  assert.match(read.fix || '', /^if the order matters, clear the timeout before the write, or return in it/);
  const [written] = await entriesOf([timer(2, 'w'), timer(1, 'r')], [[0, 3, 1], [0, 4, 6]]);
  assert.deepStrictEqual([written.what, written.recorded], [['x', 'x = { a: 1 }'], 'the timeout late came first; in the other order the timeout soon reads the value from before']);
  const [both] = await entriesOf([timer(2, 'w'), timer(1, 'w')], [[0, 3, 1], [0, 1, 1]]);
  assert.strictEqual(both.recorded, 'the timeout late came first; in the other order what the timeout late writes stays');
  assert.match(both.fix || '', /let one side check whether the other has written/);
});

test('an update goes on from what the other side writes, or is overwritten', async () => {
  const [before] = await entriesOf([timer(2, 'w'), timer(1, 'w')], [[0, 2, 1], [0, 1, 1]]);
  assert.match(before.recorded || '', /; in the other order the timeout late goes on from what the timeout soon writes$/);
  const [after] = await entriesOf([timer(2, 'w'), timer(1, 'w')], [[0, 1, 1], [0, 2, 1]]);
  assert.match(after.recorded || '', /; in the other order what the timeout soon does to the value is overwritten$/);
});

test('a reply that reads what a user changes: it keeps the value, or returns', async () => {
  const facts = { ...CLICK, requests: { 1: { address: 'http://a/data.json', place: /** @type {Place} */ ([0, 1, 1]) } } };
  const [one] = await entriesOf([reply(1, 'r'), click('w')], [[0, 4, 6], [0, 1, 1]], facts);
  assert.match(one.fix || '', /^if the order matters, keep the value in a local variable where the request is sent, or return in the reply/);
  const [use] = await entriesOf([click('r'), reply(1, 'w')], [[0, 4, 6], [0, 1, 1]], facts);
  assert.match(use.fix || '', /^if the order matters, disable the control until the value is written/);
});

test('replies: in the order of their requests, or not; both', async () => {
  const requests = { requests: { 1: { address: 'http://a/one.json' }, 2: { address: 'http://a/two.json' } } };
  const recordedOf = async (/** @type {string[][]} */ ...pieces) => (await entriesOf(pieces, [[0, 1, 1], [0, 1, 1]], requests)).map(({ recorded }) => recorded);
  assert.deepStrictEqual(await recordedOf(reply(1, 'w'), reply(2, 'w')), ['the replies came in the order of their requests']);
  assert.deepStrictEqual(await recordedOf(reply(2, 'w'), reply(1, 'w')), ['the newer reply came first']);
});

test('every entry says which order was recorded; both, if both came', async () => {
  const [flag] = await entriesOf([timer(2, 'w'), timer(1, 'w')], [[0, 1, 1], [0, 1, 1]], { values: { [FIRST]: 'true', [FIRST + 2]: 'true' } });
  assert.match(flag.recorded || '', / came first$/);
  const timeouts = { 1: { function: 'soon', place: /** @type {Place} */ ([0, 1, 1]) }, 2: { function: 'soon', place: /** @type {Place} */ ([0, 1, 1]) } };
  const both = await entriesOf([timer(2, 'w'), click('r'), timer(1, 'w')], [[0, 1, 1], [0, 4, 6], [0, 1, 1]], { ...CLICK, timeouts });
  assert.deepStrictEqual(both.filter(({ recorded }) => recorded?.startsWith('both orders came')).length, 1, JSON.stringify(both));
  for (const { lines } of both) assert.strictEqual(lines.filter((line) => line.startsWith('    recorded: ')).length, both.length);
});
