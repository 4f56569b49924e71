'use strict';
// Late handlers of one call are one entry; each keeps its name.

const assert = require('node:assert');
const { test } = require('node:test');
const { Known } = require('./known.js');
const { Listing } = require('./listing.js');
const { LoadsListing } = require('./loads-listing.js');
const { LoadRuns } = require('./loads-run.js');
const { linesOf } = require('./outputs.js');
const { Problems } = require('./problems.js');
const { judgeLines } = require('../test/list-support.js');

/** @typedef {import('./types').Place} Place */

/** A script registers handlers of two elements; a user clicks at both, and moves over the first one. */
const HANDLERS = [['1', 'click'], ['1', 'mouseover'], ['1', 'mouseout'], ['2', 'click']];
const ON = HANDLERS.flatMap(([target, type], k) => [`on ${k + 1}`, `w slot ${target} ${type}/${k + 1}`]);
const EVENTS = HANDLERS.flatMap(([target, type], k) => [`fire ${k + 1} ${target} ${type}`, `r slot ${target} ${type}/${k + 1}`, `run ${k + 1} 0 ${k + 1}`, `w var 0 x${k}`, `close ${k + 1}`]);
const LINES = ['parse 0 1 plain', 'parse 0 2 plain', 'parse 0 3 async', 'exec 3', ...ON, ...EVENTS];
const PAGE = '<a href="#start">Start</a>\n<button>Save</button>\n<script async src=app.js></script>';
const NAMES = {
  files: [{ address: 'http://a/page.html', text: PAGE }, { address: 'http://a/app.js', text: "$('#tabs').tabs();\n" }, { address: 'http://a/jquery-ui.js', text: 'a\n', isLibrary: true }],
  elements: { 1: { tag: 'a', place: /** @type {Place} */ ([0, 1, 1]) }, 2: { tag: 'button', place: /** @type {Place} */ ([0, 2, 1]) }, 3: { tag: 'script', source: 'app.js' } },
  documents: {}, timeouts: {}, intervals: {}, requests: {}, objects: {},
  dispatches: Object.fromEntries(HANDLERS.map(([, type], k) => [k + 1, { type, act: 1000 * (k + 1) }])),
};
/** The numbers of the lines that register, after `webtrace`. */
const REGISTERS = HANDLERS.map((_, k) => 1 + 4 + 2 * (k + 1));

/**
 * The problems, registered at places of the page's own code, with or without a library.
 * @param {(k: number) => Place} placeOf @param {boolean} isByLibrary
 */
async function problemsOf(placeOf, isByLibrary) {
  const { text, report } = await judgeLines(LINES);
  const places = Object.fromEntries(REGISTERS.map((line, k) => [line, placeOf(k)]));
  /** @type {{way?: Place}} */
  const way = isByLibrary ? { way: [2, 1, 1] } : {};
  const handlers = Object.fromEntries(HANDLERS.map(([target, type], k) => [k + 1, { type, target: Number(target), place: placeOf(k), ...way }]));
  return new Problems(text, { ...NAMES, places, handlers }, report);
}

/** @param {Listing} listing */
const headsOf = (listing) => listing.told().map(({ line, others }) => ({ ...listing.entryOf(line, others), count: others.length }));

test('all that a library registers for one call is one entry, with what the user gets without the handlers', async () => {
  const problems = await problemsOf(() => [1, 1, 12], true);
  const listing = new Listing([problems], null);
  const [entry, ...rest] = headsOf(listing);
  assert.deepStrictEqual(rest, []);
  assert.strictEqual(entry.sentence, 'A click at button "Save" is lost until its handler is registered');
  assert.deepStrictEqual(entry.sides.map(({ place, also }) => [place, also]), [['app.js:1:12 (via jquery-ui.js:1:1)', ''], ['page.html:2:1', '(also click at link "Start", mouseover at link "Start", mouseout at link "Start": registered by the same call)']]);
  assert.strictEqual(entry.more, 'in all, 4 problems: 4 races');
  assert.strictEqual(listing.fixOf(listing.lines[0]), 'make the call of line 1 right after the element, its libraries before it, or disable the element until then', 'of one problem');
  assert.deepStrictEqual(entry.details.find(([label]) => label === 'fix'), ['fix', 'make the call of line 1 right after the last element that it needs, its libraries before it, or hide the elements until then']);
  assert.strictEqual(linesOf(listing).filter((line) => /for races\.known/.test(line)).length, 1);
});

test('code of the page that registers handlers at one place: one entry for each target', async () => {
  const listing = new Listing([await problemsOf(() => [1, 1, 1], false)], null);
  assert.deepStrictEqual(headsOf(listing).map(({ sides, count }) => [sides[1].what, sides[1].also, count]), [
    ['button "Save"', '', 0], ['link "Start"', '(also mouseover, mouseout: registered by the same call)', 2],
  ]);
});

test('a click at a link, which works without its handler, is in a section of its own after what is lost', async () => {
  const listing = new Listing([await problemsOf(() => [1, 1, 1], false)], null);
  const [, link] = headsOf(listing);
  assert.strictEqual(link.sentence, 'Until its handler is registered, a click at link "Start" only follows the link to #start');
  assert.match(link.details.find(([label]) => label === 'fix')?.[1] || '', /; none if the link leads to the same content$/);
  assert.deepStrictEqual(listing.told().map(({ line }) => listing.partOf(line)), ['loses what a user does', 'links that work without their handler']);
  const { line } = listing.told()[1];
  const partAfter = (/** @type {string} */ kind) => {
    listing.setVerdicts(0, [{ race: line.first + 1, verdict: 'turned', words: '', effect: 'a lost act', differences: [{ kind: 'event' }, { kind }] }]);
    return listing.partOf(line);
  };
  assert.deepStrictEqual([partAfter('hash'), partAfter('text')], ['links that work without their handler', 'loses what a user does']);
});

test('other places, other calls: an event that comes again is in a section of its own then', async () => {
  const listing = new Listing([await problemsOf((k) => [1, 1, k + 1], true)], null);
  const all = listing.told().map(({ line }) => [listing.partOf(line), listing.fixOf(line)]);
  assert.deepStrictEqual(all.map(([part]) => part), ['loses what a user does', 'links that work without their handler', 'often harmless', 'often harmless']);
  const again = 'usually none: the pointer comes again; to lose no event, register it after the element';
  assert.deepStrictEqual(all.map(([, fix]) => fix === again), [false, false, true, true]);
  const [, , { line }] = listing.told();
  listing.setVerdicts(0, [{ race: line.first + 1, verdict: 'turned', words: '', effect: 'a lost act', differences: [{ kind: 'text' }] }]);
  assert.deepStrictEqual([listing.partOf(line), /^make the call of line 1 /.test(listing.fixOf(line))], ['loses what a user does', true], 'a replay found more than the lost event');
});

test('an entry is shown by the handler that was replayed, also if others come before it then', async () => {
  const listing = new Listing([await problemsOf(() => [1, 1, 12], true)], null);
  const [{ line }] = listing.told();
  listing.setVerdicts(0, [{ race: line.first + 1, verdict: 'turned', words: '', sentence: 'a click is lost', effect: 'a lost act', differences: [{ kind: 'event' }] }]);
  const [{ line: after, others }] = listing.told();
  assert.deepStrictEqual([after.name, others.length], [line.name, 3]);
  assert.deepStrictEqual(listing.entryOf(after, others).details.find(([label]) => label === 'replayed'), ['replayed', 'a click is lost']);
});

test('names stay, and with a file of known races each problem has its line', async () => {
  const [one, other] = [await problemsOf(() => [1, 1, 12], true), await problemsOf(() => [1, 1, 12], false)];
  assert.deepStrictEqual(one.list.map(({ name }) => name).sort(), other.list.map(({ name }) => name).sort());
  const names = new Listing([one], null).problems.map(({ name }) => name);
  assert.strictEqual(names.length, 4);
  assert.strictEqual(new Listing([one], new Known('', 'races.known')).told().length, 4);
  assert.strictEqual(new Listing([one], new Known(names.slice(1).join('\n'), 'races.known')).told().length, 1);
});

test('a list of loads has the same entry', async () => {
  const facts = new LoadRuns(false).factsOf(await problemsOf(() => [1, 1, 12], true));
  const listing = new LoadsListing([new LoadRuns(false).take(structuredClone(facts))], null, {}, ['1.html']);
  assert.deepStrictEqual(headsOf(listing).map(({ sides }) => sides[1].also), ['(also click at link "Start", mouseover at link "Start", mouseout at link "Start": registered by the same call)']);
});
