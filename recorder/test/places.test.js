'use strict';
// Where the page's own code asks a library for something, both places are printed, in a real browser.

const assert = require('node:assert');
const { after, before, test } = require('node:test');
const { Chromium } = require('../browser/chromium.js');
const { parseOptions } = require('../recording/options.js');
const { Actions } = require('../races/actions.js');
const { Words } = require('../races/words.js');
const { recordPage } = require('./support.js');

const LIMIT = { timeout: 150000 };
const CLICK = ['--do', 'click:button'];
const { libraries } = parseOptions(['x']);
/** @type {Chromium} */
let browser;
before(async () => { browser = await Chromium.launch({ width: 1100, height: 800 }); });
after(async () => { await browser.close(); });

/**
 * All actions of a page in words.
 * @param {string[]} words
 * @param {RegExp|null} [given]
 */
async function actionsOf(words, given = libraries) {
  const trace = await recordPage(browser, 'by-way-of-library.html', [...CLICK, ...words]);
  const inWords = new Words(JSON.parse(trace.namesOf(given).toJson({})), new Actions(trace.text.replace(/end\n$/, '')));
  return inWords.actions.list.map(({ number }) => inWords.action(number));
}

test('the page\'s own place, with the library\'s after it', LIMIT, async () => {
  const actions = await actionsOf([]);
  for (const due of ['the timeout wrapped set at by-way-of-library.html:7, by way of jquery-tiny.js:1', 'the timeout wrapped set at by-way-of-library.html:8, by way of jquery-tiny.js:1',
    'the click handler three at by-way-of-library.html:9, by way of jquery-tiny.js:2', 'the load handler four of the request for data.json at by-way-of-library.html:10, by way of jquery-tiny.js:5',
    'the animation frame five asked for at by-way-of-library.html:11, by way of tiny.min.js:1']) assert.ok(actions.includes(due), `${due}\n${actions.join('\n')}`);
});

test('no file is a library', LIMIT, async () => {
  const actions = await actionsOf(['--libraries', 'none'], null);
  for (const due of ['the timeout wrapped set at jquery-tiny.js:1', 'the click handler three at jquery-tiny.js:2', 'the animation frame five asked for at tiny.min.js:1']) {
    assert.ok(actions.includes(due), `${due}\n${actions.join('\n')}`);
  }
});

test('what a library does has the page\'s own call that led to it, however deep', LIMIT, async () => {
  const trace = await recordPage(browser, 'fills-by-library.html', []);
  const names = JSON.parse(trace.namesOf(libraries).toJson({}));
  const { lines } = new Actions(trace.text);
  const writes = Object.keys(names.callers).filter((line) => / class$/.test(lines[Number(line) - 1]));
  /** @param {import('../races/types').Place} place */
  const placeOf = ([file, line]) => `${names.files[file].address.replace(/^.*\//, '')}:${line}`;
  assert.deepStrictEqual(writes.map((line) => [placeOf(names.callers[line]), placeOf(names.places[line])]),
    [['fills-by-library.html:9', 'jquery-fills.js:2'], ['fills-by-library.html:6', 'jquery-fills.js:2']], 'the place that names contain stays');
});

test('a timeout of jQuery\'s ready has the place where the page passed the callback', LIMIT, async () => {
  const trace = await recordPage(browser, 'ready-late.html', CLICK);
  const { timeouts } = JSON.parse(trace.namesOf(libraries).toJson({}));
  assert.deepStrictEqual(Object.values(timeouts).flatMap(({ ready }) => (ready ? [ready[1]] : [])), [7], 'the call of ready in the page\'s own file');
});
