'use strict';
// The errors of a page are reported as without the recorder: the same ones, each with its place. In a browser.

const assert = require('node:assert');
const path = require('node:path');
const { after, before, test } = require('node:test');
const { Chromium } = require('../browser/chromium.js');
const { parseOptions } = require('../recording/options.js');
const { Recorder } = require('../recording/recorder.js');
const { PAGES } = require('./support.js');

/** @type {Chromium} */
let browser;
before(async () => { browser = await Chromium.launch({ width: 1100, height: 800 }); });
after(async () => { await browser.close(); });

/**
 * @param {string} page
 * @param {string[]} words
 */
async function errorsOf(page, words) {
  const recorder = new Recorder(path.join(PAGES, page), { ...parseOptions([...words, page]), browser });
  await recorder.record();
  return recorder.errors.sort();
}

test('errors with their places, one that a function of the browser hands on, and calls in their own words', { timeout: 150000 }, async () => {
  const plain = await errorsOf('errors.html', ['--raw']);
  assert.strictEqual(plain.length, 18, plain.join('\n'));
  assert.deepStrictEqual(await errorsOf('errors.html', []), plain);
  assert.deepStrictEqual(await errorsOf('errors.html', ['--depth', 'globals']), plain);
});

/** Pages that throw if something is not as the HTML Standard says. */
const CHECK_THEMSELVES = ['message-source.html', 'removed-again.html'];

for (const page of CHECK_THEMSELVES) {
  test(`${page} finds the same as without the recorder`, { timeout: 150000 }, async () => {
    for (const words of [['--raw'], [], ['--depth', 'globals']]) assert.deepStrictEqual(await errorsOf(page, words), [], words.join(' '));
  });
}

test('the scripts of a frame that is not recorded, as one of another origin, do the same', { timeout: 60000 }, async () => {
  assert.deepStrictEqual(await errorsOf('frame-sandboxed.html', []), []);
});
