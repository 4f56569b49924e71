'use strict';
// The view in a real browser: what it shows, its filter, what folds out, text of the page that looks like markup, and many races.

const assert = require('node:assert');
const fs = require('node:fs');
const path = require('node:path');
const { pathToFileURL } = require('node:url');
const { after, before, test } = require('node:test');
const { Chromium } = require('../browser/chromium.js');
const { Tab } = require('../browser/tab.js');
const { leftOutLines, writePage } = require('../view.js');
const { run, temporaryFolder } = require('./cleanup.js');

const TOP = path.join(__dirname, '..', '..');
const SIZE = { width: 1100, height: 800 };
const LONGEST_RUN = 140000;
const folder = temporaryFolder('view-test');
/** @type {Chromium} */
let browser;
before(async () => { browser = await Chromium.launch(SIZE); });
after(async () => { await browser.close(); });

/** @param {string[]} words */
const view = (...words) => run(path.join(TOP, 'er_view'), words, { longest: LONGEST_RUN });

/**
 * Writes a trace and its names, makes the view, and opens it.
 * @param {string} name
 * @param {string[]} lines
 * @param {object|null} names
 */
async function openView(name, lines, names) {
  const file = path.join(folder, `${name}.trace`);
  fs.writeFileSync(file, ['webtrace 1', ...lines, 'end', ''].join('\n'));
  if (names) fs.writeFileSync(path.join(folder, `${name}.names.json`), JSON.stringify(names));
  const { status, stderr } = await view(file);
  assert.strictEqual(status, 1, stderr);
  const tab = await Tab.open(browser, SIZE);
  /** @type {string[]} */
  const errors = [];
  tab.on('Runtime.exceptionThrown', ({ exceptionDetails }) => { errors.push(exceptionDetails.text); });
  await tab.send('Page.enable');
  await tab.send('Runtime.enable');
  await load(tab, name);
  return { tab, errors };
}

/**
 * @param {Tab} tab
 * @param {string} name
 */
async function load(tab, name) {
  const loaded = new Promise((resolve) => tab.on('Page.loadEventFired', resolve));
  await tab.send('Page.navigate', { url: pathToFileURL(path.join(folder, `${name}.html`)).href });
  await loaded;
}

/**
 * Clicks at what a selector finds, and waits until what folds out is there.
 * @param {Tab} tab
 * @param {string} selector
 */
async function clickAt(tab, selector) {
  const spot = await tab.evaluate(`(() => { const one = document.querySelector(${JSON.stringify(selector)}); one.scrollIntoView({ block: 'center' }); const box = one.getBoundingClientRect(); return { x: box.left + 20, y: box.top + box.height / 2 }; })()`);
  for (const type of ['mousePressed', 'mouseReleased']) await tab.send('Input.dispatchMouseEvent', { type, ...spot, button: 'left', clickCount: 1 });
  await new Promise((resolve) => setTimeout(resolve, 200));
}

/**
 * Clicks at an action in the first picture; the recorded load has eight.
 * @param {Tab} tab
 * @param {number} action
 */
const pick = (tab, action) => tab.evaluate(`(() => { const svg = document.querySelector('svg'); const box = svg.getBoundingClientRect(); svg.dispatchEvent(new MouseEvent('click', { clientX: box.left + box.width * (120 + ${action} / 7 * 868) / 1000, clientY: box.top })); })()`);
/** @type {(tab: Tab, selector: string) => Promise<number>} */
const count = (tab, selector) => tab.evaluate(`document.querySelectorAll(${JSON.stringify(selector)}).length`);
/** @type {(tab: Tab, selector: string) => Promise<string>} */
const textOf = (tab, selector) => tab.evaluate(`document.querySelector(${JSON.stringify(selector)}).textContent`);
/** @type {(tab: Tab, selector: string) => Promise<string[]>} */
const textsOf = (tab, selector) => tab.evaluate(`[...document.querySelectorAll(${JSON.stringify(selector)})].map((one) => one.textContent)`);
/** @type {(tab: Tab, id: string, value: string) => Promise<unknown>} */
const choose = (tab, id, value) => tab.evaluate(`(() => { const one = document.getElementById('${id}'); one.value = ${JSON.stringify(value)}; one.dispatchEvent(new Event(one.type === 'search' ? 'input' : 'change')); })()`);

/** Two races on one pair of actions, one on an element and one on a handler. */
const SHOP = ['parse 0 1 plain', 'parse 0 2 async', 'parse 0 3 plain', 'w elem 0 <b>menu', 'exec 2', 'r elem 0 <b>menu', 'set 1 10', 'set 2 0',
  'on 1', 'w slot 3 click/1', 'timer 2', 'w var 0 cart', 'w var 0 sum', 'timer 1', 'r var 0 cart', 'r var 0 sum', 'fire 1 3 click', 'r slot 3 click/1', 'close 1'];
const NAMES = {
  format: 1, page: 'shop <i>', files: [{ address: 'http://localhost/shop.js', text: 'one\n<script>alert("x")</script>\nsetTimeout(a)\nsetTimeout(b)\n' }],
  elements: { 1: { tag: 'HTMLDocument' }, 2: { tag: 'script', source: 'shop.js' }, 3: { tag: 'button', id: '<b>menu' } },
  documents: {}, handlers: { 1: { type: 'click', target: 3, function: 'buy' } }, timeouts: { 1: { place: [0, 3, 1] }, 2: { place: [0, 4, 1] } },
  intervals: {}, requests: {}, dispatches: {}, places: { 13: [0, 2, 2], 16: [0, 3, 1] },
};

test('groups in words, a filter, and what folds out', { timeout: 150000 }, async () => {
  const { tab, errors } = await openView('shop', SHOP, NAMES);
  assert.strictEqual(await textOf(tab, '#found'), '3 problems: 3 groups with 4 races');
  assert.match(await textOf(tab, 'details.group .look'), /use before definition/);
  await choose(tab, 'order', 'size');
  assert.deepStrictEqual([await textOf(tab, 'details.group .at'), await textOf(tab, 'details.group .sentence')], ['shop.js:3', '`cart` may not be defined yet']);
  await choose(tab, 'kind', 'element');
  assert.strictEqual(await textOf(tab, '#found'), '1 problem: 1 group with 1 race');
  assert.deepStrictEqual([await textOf(tab, 'details.group .at'), await textOf(tab, 'details.group .sentence')], ['shop <i>', '`#<b>menu` may not be in the page yet']);
  assert.strictEqual(await count(tab, 'main b, main i'), 0);
  await choose(tab, 'kind', 'all');
  await choose(tab, 'text', 'SUM');
  assert.strictEqual(await textOf(tab, '#found'), '1 problem: 1 group with 1 race');
  await choose(tab, 'text', '');
  assert.strictEqual(await count(tab, 'svg'), 0);
  await clickAt(tab, 'details.group summary');
  assert.strictEqual(await count(tab, 'details.group svg'), 1);
  assert.strictEqual(await count(tab, 'details.group svg .dot'), 2);
  assert.match(await textOf(tab, '.source .place'), /<script>alert\("x"\)<\/script>/);
  assert.match(await textOf(tab, '.sides'), /reads.*cart.*timeout, scheduled at shop\.js:3:1.*writes.*cart.*timeout, scheduled at shop\.js:4:1/);
  assert.match((await textsOf(tab, '.detail')).join('\n'), /^recorded: it was there.*\nfix: use it after it is set/);
  assert.match(await textOf(tab, '.why'), /requested by the script shop\.js/);
  await pick(tab, 7);
  assert.match(await textOf(tab, '.picked'), /^Action 7, line 20 of the trace: .*click/);
  await pick(tab, 0);
  assert.match(await textOf(tab, '.picked'), /Action 0, .*Action 7, .*From action 0 these steps lead to action 7:.*\(action 7\) by rule 16/);
  await pick(tab, 4);
  await pick(tab, 5);
  assert.match(await textOf(tab, '.picked'), /Nothing orders action 4 and action 5: they race on "cart"\./);
  await pick(tab, 3);
  await pick(tab, 7);
  assert.match(await textOf(tab, '.picked'), /does not contain whether something orders action 3 and action 7\. This command prints it:\.\/er_view .*shop\.trace --why 3 7$/);
  assert.match(await textOf(tab, '.others summary'), /1 more race/);
  await clickAt(tab, '.others > summary');
  await clickAt(tab, '.one > summary');
  assert.strictEqual(await count(tab, 'details.group svg'), 2);
  await clickAt(tab, 'details.group summary');
  assert.strictEqual(await tab.evaluate("document.querySelector('details.group').open"), false);
  assert.deepStrictEqual(errors, []);
});

/**
 * What a replay found of a race, as a command puts it into the view.
 * @param {number} race
 * @param {object} [facts]
 */
function replayOf(race, facts) {
  const none = { differences: [], beside: [], unsteady: [], byDelay: [], picture: null, groupWords: '' };
  return { race, verdict: 'turned', kind: 'same', words: 'turned: no visible difference', means: 'a timeout is put off', isListed: true, trace: `replays/${race}.trace`, ...none, ...facts };
}

test('races that were run again: what differs first, and the harmless folded', { timeout: 150000 }, async () => {
  const { tab, errors } = await openView('again', SHOP, NAMES);
  const lost = { kind: 'event', subject: 'the click: <b>', isSeen: true, recorded: 'buy', other: 'not run' };
  const replays = [
    replayOf(1),
    replayOf(3, { verdict: 'not turned', kind: 'not', words: 'could not be turned: <i>both</i> come from one act of the user' }),
    replayOf(2, { kind: 'differs', effect: 'a lost act', ownEffect: 'a lost act', words: 'turned: differs: lost event', differences: [lost] }),
  ];
  writePage(path.join(folder, 'again.trace'), { ...JSON.parse(await textOf(tab, '#model')), replays, recordedPicture: null });
  await load(tab, 'again');
  const texts = (/** @type {string} */ selector) => textsOf(tab, selector);
  await tab.evaluate("{ const order = document.getElementById('order'); order.value = 'verdict'; order.dispatchEvent(new Event('change')); }");
  assert.deepStrictEqual(await texts('details.group > summary .verdict'), ['turned: differs', 'not turned']);
  assert.deepStrictEqual(await texts('details.group > summary .effect'), ['a lost act']);
  assert.deepStrictEqual(await texts('.harmless > summary'), ['1 problem with no visible difference in the other order']);
  assert.ok(!await tab.evaluate("document.querySelector('.harmless').open"));
  await clickAt(tab, '.harmless > summary');
  assert.deepStrictEqual(await texts('.harmless details.group > summary .verdict'), ['turned: no visible difference']);
  await clickAt(tab, '.harmless details.group > summary');
  assert.match(await textOf(tab, '.harmless .replay'), /To turn them, a timeout is put off\. .*No visible difference was found at the end\./);
  assert.ok((await textOf(tab, '.harmless .replay code')).endsWith(`er_view ${path.join(folder, 'replays/1.trace')}`));
  await clickAt(tab, 'details.group > summary');
  assert.deepStrictEqual(await texts('.replay .differences td'), ['event: the click: <b>', 'buy', 'not run']);
  assert.strictEqual(await count(tab, 'main b, main i'), 0);
  assert.deepStrictEqual(errors, []);
});

test('the sections of the list, with their counts, and what is known in a closed one at the end', { timeout: 150000 }, async () => {
  const { tab, errors } = await openView('sections', SHOP, NAMES);
  assert.deepStrictEqual(await textsOf(tab, '.section header'), ['may throw2 problems', 'loses what a user does1 problem']);
  const model = JSON.parse(await textOf(tab, '#model'));
  model.listed[1].isKnown = true;
  writePage(path.join(folder, 'sections.trace'), { ...model, totals: { problems: 2, known: 1, groups: 3, races: 4 } });
  await load(tab, 'sections');
  assert.strictEqual(await textOf(tab, '#found'), '2 problems, 1 known: 3 groups with 4 races');
  assert.match(await textOf(tab, '.counts'), /^2 problems, 1 known, 3 groups, 4 races, /);
  assert.deepStrictEqual(await textsOf(tab, '.section > header, .section > summary'), ['may throw1 problem', 'loses what a user does1 problem', 'known1 problem']);
  assert.strictEqual(await count(tab, 'details.section[open]'), 0);
  await clickAt(tab, 'details.section > summary');
  assert.deepStrictEqual(await textsOf(tab, 'details.section details.group > summary .known'), ['known']);
  await choose(tab, 'order', 'size');
  assert.deepStrictEqual(await textsOf(tab, '.section > header, .section > summary'), ['known1 problem']);
  assert.deepStrictEqual(errors, []);
});

test('why two actions are ordered', { timeout: 150000 }, async () => {
  const file = path.join(folder, 'why.trace');
  fs.writeFileSync(file, ['webtrace 1', ...SHOP, 'end', ''].join('\n'));
  /** @type {(from: string, to: string) => ReturnType<typeof view>} */
  const ask = (from, to) => view(file, '--why', from, to);
  const ordered = await ask('0', '4');
  if (ordered.status !== 0) { // a program without the mode `explain` says so
    assert.match(ordered.stderr, /^er_view: no explanation: /);
    return;
  }
  assert.match(ordered.stdout, /^These steps put action 0 .* before action 4 .*:\n {2}.*by rule \d+: /);
  assert.match((await ask('4', '5')).stdout, /^Nothing puts action 4 .* before action 5 .*\./);
  const none = await ask('0', '99');
  assert.deepStrictEqual([none.status, none.stderr], [2, 'er_view: the trace has no action 0 or no action 99\n']);
});

test('many variables that are over the limits: three lines, and one for all others', () => {
  const all = [1, 2, 3, 4, 5].map((k) => ({ location: `var 0 v${k}`, words: `"v${k}"`, accesses: k, pairs: 10 * k }));
  assert.deepStrictEqual(leftOutLines(all.slice(0, 3), 'f'), ['"v1", with 1 accesses and 10 pairs', '"v2", with 2 accesses and 20 pairs', '"v3", with 3 accesses and 30 pairs']);
  assert.deepStrictEqual(leftOutLines(all, 'f').slice(3), ['2 more, with 9 accesses and 90 pairs: f has them']);
});

test('a trace without names', { timeout: 150000 }, async () => {
  const { tab, errors } = await openView('bare', SHOP, null);
  assert.strictEqual(await textOf(tab, '#found'), '3 problems: 3 groups with 4 races');
  await clickAt(tab, 'details.group summary');
  assert.strictEqual(await count(tab, 'details.group svg'), 1);
  assert.deepStrictEqual(errors, []);
});

test('ten thousand races', { timeout: 150000 }, async () => {
  const timers = Array.from({ length: 145 }, (_, k) => k + 1);
  const lines = ['parse 0 1 inline', 'exec 1', ...timers.map((k) => `set ${k} ${200 - k}`), ...timers.reverse().flatMap((k) => [`timer ${k}`, 'w var 0 x'])];
  const { tab, errors } = await openView('many', lines, null);
  assert.strictEqual(await textOf(tab, '#found'), '1 problem: 10440 groups with 10440 races');
  assert.strictEqual(await count(tab, 'details.problem'), 1);
  await clickAt(tab, 'details.problem summary');
  assert.strictEqual(await count(tab, 'details.group'), 200);
  await clickAt(tab, 'button.more');
  assert.strictEqual(await count(tab, 'details.group'), 400);
  const begin = Date.now();
  await choose(tab, 'text', 'var 0 x');
  await choose(tab, 'order', 'trace');
  assert.strictEqual(await textOf(tab, '#found'), '1 problem: 10440 groups with 10440 races');
  assert.ok(Date.now() - begin < 10000, `filtering took ${Date.now() - begin} ms`);
  assert.deepStrictEqual(errors, []);
});
