'use strict';
// Objects and closures in words, what is known of their values, and what only libraries touch. In a browser.

const assert = require('node:assert');
const path = require('node:path');
const { after, before, test } = require('node:test');
const { Chromium } = require('../browser/chromium.js');
const { parseOptions } = require('../recording/options.js');
const { readRun } = require('../recording/files.js');
const { Recorder } = require('../recording/recorder.js');
const { Actions } = require('../races/actions.js');
const { Words } = require('../races/words.js');
const { PAGES } = require('./support.js');

/** @type {Chromium} */
let browser;
before(async () => { browser = await Chromium.launch({ width: 1100, height: 800 }); });
after(async () => { await browser.close(); });

/**
 * A page as `er_record` records it; `told` are its accesses by lines, each with its location in words.
 * @param {string} page
 * @param {string[]} words
 */
async function recordRun(page, words = []) {
  const options = parseOptions([...words, page]);
  const recorder = new Recorder(path.join(PAGES, page), { ...options, browser });
  await recorder.record();
  const { text, names, accesses } = readRun(recorder, options);
  const facts = JSON.parse(names.toJson({}));
  const inWords = new Words(facts, new Actions(text.replace(/end\n$/, '')));
  const told = text.split('\n').map((record, k) => ({ line: k + 1, record })).filter(({ record }) => /^[rw] /.test(record))
    .map(({ line, record }) => ({ line, mode: record[0], what: inWords.location(record.slice(2)).text }));
  return { told, facts, accesses, options };
}

const unique = (/** @type {string[]} */ texts) => [...new Set(texts)];

test('each object and closure by what a page author can find', { timeout: 150000 }, async () => {
  const { told } = await recordRun('words-of-objects.html');
  const due = ['count of the closure of makeStore() at words-store.mjs:1', 'items of state, the object first used at words-store.mjs:5',
    'total of this, the Basket first used at words-of-objects.html:7', 'the items of list, the array first used at words-of-objects.html:15',
    '[tea] of prices, the Map first used at words-of-objects.html:15', 'most of limit, the function limit first used at words-of-objects.html:13'];
  const found = unique(told.map(({ what }) => what));
  due.forEach((one) => assert.ok(found.includes(one), `${one}\n${found.join('\n')}`));
});

test('counts whose value nobody uses', { timeout: 150000 }, async () => {
  const { told, facts } = await recordRun('counters.html');
  const counted = told.filter(({ line }) => facts.counts[line]).map(({ what }) => what.replace(/ of .*/, ''));
  assert.deepStrictEqual(unique(counted).sort(), ['both', 'calls', 'few', 'hits', 'small']);
});

test('the values of a style, by each name of a property', { timeout: 150000 }, async () => {
  const { told, facts } = await recordRun('style-values.html');
  const of = (/** @type {string} */ name) => told.filter(({ what }) => what === `style.${name} of p#text`).map(({ line, mode }) => [mode, facts.values[line], !!facts.kept[line]]);
  for (const name of ['paddingTop', 'margin-top', 'cssFloat', 'webkitTextStrokeWidth', 'opacity']) {
    const [[, value]] = of(name);
    assert.match(value, /^s\w+$/, name);
    assert.deepStrictEqual(of(name), [['w', value, false], ['r', value, true]], name);
  }
  const [[first, red], [second, blue]] = of('color');
  assert.deepStrictEqual([first, second, red === blue], ['w', 'w', false]);
});

test('values, and writes of the value that was there', { timeout: 150000 }, async () => {
  const { told, facts } = await recordRun('globals-put-back.html');
  const of = (/** @type {string} */ name) => told.filter(({ what }) => what === name).map(({ line, mode }) => [mode, facts.values[line], facts.befores[line], !!facts.kept[line]]);
  const [zero, one] = of('total').filter(([mode]) => mode === 'w').map(([, value]) => value);
  assert.notStrictEqual(zero, one);
  assert.deepStrictEqual(of('total').map(([mode, value, found]) => [mode, value, found]), [['w', zero, undefined], ['r', zero, undefined], ['w', one, zero]]);
  assert.deepStrictEqual(of('lexical').map(([mode, , , isKept]) => [mode, isKept]), [['w', false], ['r', true], ['w', false]]);
});

test('what only libraries touch is counted, and shown where it is asked for', { timeout: 150000 }, async () => {
  const { told, accesses } = await recordRun('libraries-own.html');
  const names = unique(told.map(({ what }) => what));
  assert.ok(names.some((one) => one.startsWith('n of shared')), names.join('\n'));
  assert.ok(!names.some((one) => one.startsWith('calls of state')), names.join('\n'));
  assert.match(accesses.lines().join('\n'), /^\d+ accesses to 1 object that only libraries touch are left out; --libraries none shows them$/m);
  const shown = await recordRun('libraries-own.html', ['--libraries', 'none']);
  assert.ok(shown.told.some(({ what }) => what.startsWith('calls of state')));
});
