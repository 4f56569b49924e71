'use strict';
// The page of the view without a browser: its size for a large trace, its policy, and what it shows of sources and commands.

const assert = require('node:assert');
const { createHash } = require('node:crypto');
const { test } = require('node:test');
const { Listing } = require('../list/listing.js');
const { Problems } = require('../list/problems.js');
const { Actions } = require('../races/actions.js');
const { judgeLines } = require('../test/list-support.js');
const { renderPage } = require('./html.js');
const { Model } = require('./model.js');
const { cutLine } = require('./excerpts.js');
const { quoted } = require('./quoted.js');

/** @typedef {import('../list/types').Names} Names */

const MOST_BYTES = 5000000;
/** Of a busy machine too: the list was quadratic, and took a minute. */
const MOST_SECONDS = 20;
/** @type {Names} */
const NAMES = { files: [], elements: {}, documents: {}, handlers: {}, timeouts: {}, intervals: {}, requests: {}, dispatches: {}, objects: {}, places: {} };

/**
 * The model of a trace.
 * @param {string[]} lines
 * @param {Partial<Names>} facts
 */
async function modelOf(lines, facts = {}, trace = 'page.trace') {
  const { text, report } = await judgeLines(lines);
  const names = { ...NAMES, ...facts };
  const begin = process.cpuUsage();
  const problems = new Problems(text, names, report);
  const listing = new Listing([problems], null);
  const built = new Model(report, names, new Actions(text.replace(/end\n$/, ''))).build([], listing);
  const commands = { viewer: './er_view', trace, command: `./er_view ${quoted(trace)}`, report: `./er_cli < ${quoted(trace)}` };
  const page = renderPage({ ...built, leftOut: [], ofLibraries: null, isUnproved: false, lacksLinks: false, ...commands });
  const { user, system } = process.cpuUsage(begin);
  return { report, model: built, page, seconds: (user + system) / 1e6 };
}

/**
 * Timers in the reverse of their order, each of which writes some variables at places of its own.
 * @param {number} timers
 * @param {number} variables
 * @param {number} places
 */
function largeTrace(timers, variables, places) {
  const numbers = Array.from({ length: timers }, (none, k) => k + 1);
  const writes = Array.from({ length: variables }, (none, k) => `w var 0 name${k}`);
  const lines = ['parse 0 1 inline', 'exec 1', ...numbers.map((k) => `set ${k} ${timers - k}`), ...numbers.reverse().flatMap((k) => [`timer ${k}`, ...writes])];
  /** @type {Names['places']} */
  const placeOf = {};
  lines.forEach((line, k) => { if (line.startsWith('w ')) placeOf[k + 2] = [0, (k * 7) % places + 1, 3]; });
  const text = Array.from({ length: places }, (none, k) => `  items[${k}] = compute(${k}, items, "<b>"); // what line ${k} of this long script does`).join('\n');
  return { lines, facts: { files: [{ address: 'http://localhost/app.js', text }], places: placeOf } };
}

test('a page of many races and problems is small, and made soon', { timeout: 300000 }, async () => {
  const { lines, facts } = largeTrace(145, 9, 4000);
  const { report, model, page, seconds } = await modelOf(lines, facts);
  assert.ok(report.races.length > 90000, `${report.races.length} races`);
  assert.ok(Buffer.byteLength(page) <= MOST_BYTES, `${Buffer.byteLength(page)} bytes`);
  assert.ok(model.races.length > 2000, `${model.races.length} are shown`);
  assert.ok(seconds < MOST_SECONDS, `${seconds} s`);
  assert.match(page, new RegExp(`This page shows ${model.races.length} of ${report.races.length} races`));
  const numbers = new Set(model.races.map(([number]) => number));
  assert.ok(model.groups.every(({ race }) => numbers.has(race)), 'the first race of each group that is shown');
  assert.ok(model.problems.every(({ first }) => numbers.has(first)), 'the first race of each problem that is shown');
});

test('many actions with long words leave room for races', { timeout: 300000 }, async () => {
  const numbers = Array.from({ length: 20000 }, (none, k) => k + 1);
  const lines = ['parse 0 1 inline', 'exec 1', 'set 1 9', 'set 2 0', ...numbers.map((k) => `parse 0 ${k + 10} plain`), 'timer 2', 'w var 0 x', 'timer 1', 'w var 0 x'];
  const elements = Object.fromEntries(numbers.map((k) => [k + 10, { tag: 'div', id: `${'é'.repeat(200)}${k}` }]));
  const { model, page } = await modelOf(lines, { elements });
  assert.ok(Buffer.byteLength(page) <= MOST_BYTES, `${Buffer.byteLength(page)} bytes`);
  assert.strictEqual(model.races.length, 1);
});

const SHOP = ['parse 0 1 async', 'parse 0 2 async', 'exec 1', 'w var 0 x', 'exec 2', 'w var 0 x'];

test('actions, races and problems are in the words of the list', async () => {
  /** @type {import('../list/types').Place} */
  const ready = [0, 3, 3];
  const lines = ['parse 0 1 plain', 'parse 0 2 inline', 'exec 2', 'set 1 0', 'timer 1', 'on 1', 'w slot 1 click/1', 'fire 1 1 click', 'r slot 1 click/1', 'run 1 0 1', 'w var 0 x', 'close 1'];
  const files = [{ address: 'http://a/page.html', text: '<button>Buy now</button>\n<script>\n  $(f)\n' }, { address: 'http://a/jquery.js', text: 'a\n', isLibrary: true }];
  const { model, page } = await modelOf(lines, {
    files, elements: { 1: { tag: 'button', place: [0, 1, 1] }, 2: { tag: 'script', place: [0, 2, 1] } }, timeouts: { 1: { place: [1, 1, 1], ready } }, handlers: { 1: { type: 'click', target: 1, place: [0, 3, 9] } },
    dispatches: { 1: { type: 'click', act: 1000 } }, places: { 8: [0, 3, 9] },
  });
  const [problem] = model.problems;
  assert.deepStrictEqual([problem.place, problem.sentence], ['page.html:3', 'A click at button "Buy now" is lost until its handler is registered']);
  assert.deepStrictEqual(problem.sides, [['registers', 'click of button "Buy now"', 'page.html:3:9', "callback of jQuery's ready, registered at page.html:3:3"], ['click at', 'button "Buy now"', 'page.html:1:1', '']]);
  assert.deepStrictEqual(problem.details.map(([label]) => label), ['recorded', 'fix']);
  for (const due of ["the callback of jQuery's ready, registered at page.html:3:3", 'the click at button "Buy now"', 'click of button "Buy now"',
    'registers click of button "Buy now" at page.html:3:9 (callback of jQuery\'s ready, registered at page.html:3:3); click at button "Buy now" at page.html:1:1']) assert.ok(model.texts.includes(due), `${due}\n${model.texts.join('\n')}`);
  assert.ok(model.origins.includes('requested by'));
  assert.doesNotMatch(page, /nothing orders them|by way of|asked for/);
});

test('of a group with many races the first hundred are shown', async () => {
  const variables = Array.from({ length: 300 }, (none, k) => `w var 0 name${k}`);
  const { model, page } = await modelOf(['parse 0 1 async', 'parse 0 2 async', 'exec 1', ...variables, 'exec 2', ...variables]);
  assert.deepStrictEqual(model.groups.map(({ size }) => size), [300]);
  assert.strictEqual(model.races.length, 100);
  assert.match(page, /This page shows 100 of 300 races/);
  assert.doesNotMatch((await modelOf(SHOP)).page, /This page shows/);
});

test('the policy allows the page\'s own script and style alone', async () => {
  const { page } = await modelOf(SHOP);
  const policy = /Content-Security-Policy" content="([^"]*)"/.exec(page)?.[1] || '';
  assert.doesNotMatch(policy, /unsafe/);
  const hashOf = (/** @type {RegExp} */ tag) => createHash('sha256').update(tag.exec(page)?.[1] || '').digest('base64');
  assert.ok(policy.includes(`script-src 'sha256-${hashOf(/<script>([^]*?)<\/script>/)}'`), policy);
  assert.ok(policy.includes(`style-src 'sha256-${hashOf(/<style>([^]*?)<\/style>/)}'`), policy);
  assert.doesNotMatch(page, /<[^>]* on\w+=/, 'an attribute with code would not run');
});

test('a line of source is shown without signs that turn its direction', () => {
  const line = '\tif (isAdmin\u202e) \u2066/* x */ go();\r';
  const { text, column } = cutLine(line, line.indexOf('go') + 1);
  assert.strictEqual(text, '\tif (isAdmin\\u{202e}) \\u{2066}/* x */ go();');
  assert.strictEqual(text.slice(column - 1), 'go();');
  const long = cutLine(`${'a'.repeat(300)}\u202ehere${'b'.repeat(300)}`, 302);
  assert.ok(long.text.slice(long.column - 1).startsWith('here') && long.text.startsWith('…a') && long.text.endsWith('b…'));
});

test('commands in the page are as a shell reads them', async () => {
  assert.deepStrictEqual(['/tmp/a.trace', '/tmp/a b.trace', "it's", '$(x)', '-é'].map(quoted), ['/tmp/a.trace', "'/tmp/a b.trace'", "'it'\\''s'", "'$(x)'", "'-é'"]);
  const { model, page } = await modelOf(SHOP, {}, 'my folder/page.trace');
  assert.ok(model);
  assert.ok(page.includes("./er_view 'my folder/page.trace'"), 'the command of the view');
});
