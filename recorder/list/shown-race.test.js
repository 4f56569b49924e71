'use strict';
// Which race of a problem is shown, and what the entry says of the others: only what holds for them.

const assert = require('node:assert');
const { test } = require('node:test');
const { FIXES } = require('./fixes.js');
const { Listing } = require('./listing.js');
const { Problems } = require('./problems.js');
const { judgeLines } = require('../test/list-support.js');

/** @typedef {import('./types').Names} Names */
/** @typedef {import('./types').Place} Place */

const PAGE = '<a href="#one">One</a>\n<a href="#two">Two</a>\n<button>Three</button>\n<button>Four</button>\n';
/** @type {Names} */
const NAMES = {
  files: [{ address: 'http://a/page.html', text: PAGE }, { address: 'http://a/app.js', text: '\n' }, { address: 'http://a/jquery.js', text: '\n', isLibrary: true }],
  elements: {}, documents: {}, handlers: {}, timeouts: {}, intervals: {}, requests: {}, dispatches: {}, places: {}, objects: {},
};

/** @param {string[]} lines @param {Partial<Names>} facts */
async function listingOf(lines, facts) {
  const { text, report } = await judgeLines(lines);
  return new Listing([new Problems(text, { ...NAMES, ...facts }, report)], null);
}

/**
 * Replies that a library writes for calls of the page in these lines of its code.
 * @param {number[]} calls
 */
async function repliesOf(calls) {
  const sends = calls.map((_, k) => `send ${k + 1}`);
  const replies = calls.flatMap((_, k) => [`reply ${k + 1} ${k + 1}`, 'w var 0 plot', `close ${k + 1}`]);
  const writes = calls.map((line, k) => ({ line, at: 1 + 2 + calls.length + 3 * k + 2 }));
  const listing = await listingOf(['parse 0 1 inline', 'exec 1', ...sends, ...replies], {
    requests: Object.fromEntries(calls.map((line, k) => [k + 1, { address: `http://a/data-${k + 1}.json`, place: /** @type {Place} */ ([1, line, 1]) }])),
    places: Object.fromEntries(writes.map(({ at }) => [at, /** @type {Place} */ ([2, 1, 1])])), callers: Object.fromEntries(writes.map(({ line, at }) => [at, /** @type {Place} */ ([1, line, 6])])),
  });
  const told = listing.told();
  assert.strictEqual(told.length, 1);
  return listing.entryOf(told[0].line, told[0].others).sides.map(({ place, actor, also }) => [place.split(' ')[0], actor.split(',')[0], also]);
}

test('"also" names only callbacks whose access is at the place that is shown', async () => {
  assert.deepStrictEqual(await repliesOf([69, 98, 105]), [['app.js:69:6', 'reply of data-1.json', ''], ['app.js:98:6', 'reply of data-2.json', '']]);
});

test('of several races of replies one is shown in which a callback writes over what it wrote itself, if there is one', async () => {
  assert.deepStrictEqual(await repliesOf([69, 98, 98]), [['app.js:98:6', 'reply of data-2.json', ''], ['app.js:98:6', 'reply of data-3.json', '(also data-2.json)']]);
  assert.deepStrictEqual((await repliesOf([69, 98, 98, 98, 98])).map(([place]) => place), ['app.js:98:6', 'app.js:98:6']);
});

/**
 * Handlers that one call of a library registers, each with the lines of its run.
 * @param {[target: number, type: string, does: string][]} events
 * @param {string} id the start of the elements' ids; '' if they have none, and are one in the names of problems
 */
async function entriesOf(events, id = 'go') {
  const on = events.flatMap(([target, type], k) => [`on ${k + 1}`, `w slot ${target} ${type}/${k + 1}`]);
  const fires = events.flatMap(([target, type, does], k) => [`fire ${k + 1} ${target} ${type}`, `r slot ${target} ${type}/${k + 1}`, `run ${k + 1} 0 ${k + 1}`, does, `close ${k + 1}`]);
  const made = [1, 2, 3, 4].map((number) => `parse 0 ${number} plain`);
  const place = /** @type {Place} */ ([1, 1, 1]);
  const listing = await listingOf([...made, 'parse 0 9 async', 'exec 9', ...on, ...fires], {
    elements: { ...Object.fromEntries([1, 2, 3, 4].map((number) => [number, { tag: number < 3 ? 'a' : 'button', ...id ? { id: `${id}${number}` } : {}, place: /** @type {Place} */ ([0, number, 1]) }])), 9: { tag: 'script', source: 'app.js' } },
    handlers: Object.fromEntries(events.map(([target, type], k) => [k + 1, { type, target, place, way: /** @type {Place} */ ([2, 1, 1]) }])),
    places: Object.fromEntries(events.map((_, k) => [1 + 6 + 2 * (k + 1), place])),
    dispatches: Object.fromEntries(events.map(([, type], k) => [k + 1, { type, act: 1000 * (k + 1) }])),
  });
  return listing.told().map(({ line, others }) => listing.entryOf(line, others));
}

/** @param {import('./entries.js').Entry} entry @param {string} label */
const detailOf = ({ details }, label) => details.find(([one]) => one === label)?.[1];

const WRITES = 'w var 0 x';
const READS = 'r var 0 y';

test('an entry says that a handler changed nothing only if that holds for all elements that it names', async () => {
  const [mixed, ...rest] = await entriesOf([[1, 'click', READS], [2, 'dblclick', WRITES]]);
  assert.deepStrictEqual(rest, []);
  assert.deepStrictEqual([mixed.sides[1].what, detailOf(mixed, 'recorded')], ['a#go2', 'the handler was there'], 'it is shown by the one that changed something');
  assert.match(mixed.sides[1].also, /^\(also click at a#go1: registered by the same call\)$/);
  const [unchanged] = await entriesOf([[1, 'click', READS], [2, 'dblclick', READS]]);
  assert.strictEqual(detailOf(unchanged, 'recorded'), 'the handler was there, and changed nothing that is recorded');
  const [ranked] = await entriesOf([[3, 'click', READS], [4, 'keydown', WRITES]]);
  assert.deepStrictEqual([ranked.sides[1].verb, detailOf(ranked, 'recorded')], ['click at', 'the handler was there'], 'a click comes before a key');
});

test('a call that registers handlers of links only is shown by the click, of which the link works', async () => {
  const entries = async (/** @type {number} */ target) => (await entriesOf([[1, 'mousedown', READS], [2, 'click', WRITES], [target, 'mouseup', READS]])).map(({ sentence, part }) => [sentence, part]);
  assert.deepStrictEqual(await entries(1), [['Until its handler is registered, a click at a#go2 only follows the link to #two', 'links that work without their handler']]);
  assert.deepStrictEqual((await entries(3)).map(([, part]) => part), ['loses what a user does'], 'a button is no link');
});

test('of a problem of two elements that shows which changed something', async () => {
  const recordedOf = async (/** @type {string} */ first, /** @type {string} */ second) => {
    const told = await entriesOf([[1, 'click', first], [2, 'click', second]], '');
    return told.map((entry) => [entry.sides[1].what, entry.sides[1].also, entry.more, detailOf(entry, 'recorded')]);
  };
  assert.deepStrictEqual(await recordedOf(READS, WRITES), [['link "Two"', '(also "One")', 'and 1 more race', 'the handler was there']]);
  assert.deepStrictEqual(await recordedOf(READS, READS), [['link "One"', '(also "Two")', 'and 1 more race', 'the handler was there, and changed nothing that is recorded']]);
});

test('the change for a problem of several elements is after the last one', async () => {
  const fixOf = async (/** @type {[target: number, type: string, does: string][]} */ events, id = '') => detailOf((await entriesOf(events, id))[0], 'fix');
  const call = 'make the call of line 1 right after the last element that it needs, its libraries before it';
  assert.strictEqual(await fixOf([[3, 'click', WRITES], [4, 'click', WRITES]]), `${call}, or disable the elements until then`);
  assert.strictEqual(await fixOf([[1, 'click', WRITES], [2, 'click', WRITES]]), `${call}, or hide the elements until then; none if the links lead to the same content`);
  assert.strictEqual(await fixOf([[3, 'click', WRITES], [2, 'dblclick', WRITES]], 'go'), `${call}, or hide the elements until then`, 'a link cannot be disabled');
  assert.strictEqual(await fixOf([[3, 'click', WRITES], [3, 'dblclick', WRITES]], 'go'), 'make the call of line 1 right after the element, its libraries before it, or disable the element until then');
});

test('two sides of one act of a user are not told as two acts', async () => {
  /** @param {number} act that of the second event */
  const toldOf = async (act) => {
    const acts = ['fire 1 1 mousedown', 'run 1 0 1', 'w var 0 x', 'close 1', 'fire 2 1 click', 'run 2 0 2', 'w var 0 x', 'close 2'];
    const listing = await listingOf(['parse 0 1 plain', 'parse 0 2 inline', 'exec 2', 'on 1', 'on 2', ...acts], {
      elements: { 1: { tag: 'button', id: 'go' } }, handlers: { 1: { type: 'mousedown', target: 1 }, 2: { type: 'click', target: 1 } },
      dispatches: { 1: { type: 'mousedown', act: 1000 }, 2: { type: 'click', act } },
    });
    return listing.told().map(({ line, others }) => [listing.entryOf(line, others).sentence, detailOf(listing.entryOf(line, others), 'fix'), line.look.seen.split(':')[0]]);
  };
  assert.deepStrictEqual(await toldOf(1001), [['One act of a user runs two handlers that reach `x`', 'usually none: the browser decides the order', 'both come from one act of a user']]);
  assert.deepStrictEqual(await toldOf(2000), [['Two acts of a user reach `x`', FIXES.acts, 'two acts of a user']]);
});

test('one act of a user and two are two entries, also at one location; of one problem with both, two acts are shown', async () => {
  /** @param {Place[]} places of the writes */
  const entriesAt = async (places) => {
    const eventsOf = (/** @type {number} */ k, /** @type {string} */ type) => [`fire ${k} 1 ${type}`, `run ${k} 0 ${k % 2 ? 1 : 2}`, 'w var 0 x', `close ${k}`];
    const acts = [...eventsOf(1, 'mousedown'), ...eventsOf(2, 'click'), ...eventsOf(3, 'mousedown'), ...eventsOf(4, 'click')];
    const dispatches = Object.fromEntries([1, 2, 3, 4].map((k) => [k, { type: k % 2 ? 'mousedown' : 'click', act: k < 3 ? 1000 + k : 2000 + k }]));
    const listing = await listingOf(['parse 0 1 plain', 'parse 0 2 inline', 'exec 2', 'on 1', 'on 2', ...acts], {
      elements: { 1: { tag: 'button', id: 'go' } }, handlers: { 1: { type: 'mousedown', target: 1 }, 2: { type: 'click', target: 1 } }, dispatches, places: Object.fromEntries(places.map((place, k) => [1 + 5 + 4 * k + 3, place])),
    });
    return listing.told().map(({ line, others }) => [listing.entryOf(line, others).sentence, detailOf(listing.entryOf(line, others), 'fix')]);
  };
  const [one, two] = [['One act of a user runs two handlers that reach `x`', 'usually none: the browser decides the order'], ['Two acts of a user reach `x`', FIXES.acts]];
  const apart = await entriesAt([[0, 1, 1], [0, 2, 1], [0, 3, 1], [0, 4, 1]]);
  assert.deepStrictEqual([...new Set(apart.map(String))].sort(), [String(one), String(two)].sort());
  assert.deepStrictEqual(await entriesAt([[0, 1, 1], [0, 2, 1], [0, 1, 1], [0, 2, 1]]), [two], 'one problem has races of both');
});

test('the event of a race has the label of its element', async () => {
  const { text, report } = await judgeLines(['parse 0 1 plain', 'parse 0 2 async', 'exec 2', 'w var 0 x', 'on 1', 'w slot 1 click/1', 'fire 1 1 click', 'r var 0 x', 'r slot 1 click/1', 'close 1']);
  const facts = { elements: { 1: { tag: 'button', place: /** @type {Place} */ ([0, 3, 1]) } }, handlers: { 1: { type: 'click', target: 1 } } };
  const { entries } = new Listing([new Problems(text, { ...NAMES, ...facts }, report)], null);
  assert.deepStrictEqual(report.races.map(({ location }, race) => [location, entries.eventOf(0, race)]).sort(), [['slot 1 click/1', 'click at button "Three"'], ['var 0 x', '']]);
});
