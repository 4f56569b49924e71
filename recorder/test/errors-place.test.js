'use strict';
// The place that is reported of a page's error: never in the recorder's own script. No browser.

const assert = require('node:assert');
const { EventEmitter } = require('node:events');
const { test } = require('node:test');
const { runInNewContext } = require('node:vm');
const { parseOptions } = require('../recording/options.js');
const { Recorder } = require('../recording/recorder.js');

/**
 * What is reported of an error, from what the browser sends.
 * @param {object} details
 */
function toldOf(details) {
  const recorder = new Recorder('page.html', parseOptions(['page.html']));
  const tab = new EventEmitter();
  recorder.tab = /** @type {import('../browser/tab.js').Tab} */ (/** @type {unknown} */ (tab)); // it is only listened to
  recorder.address = 'http://folder/page.html';
  recorder.listen();
  tab.emit('Runtime.exceptionThrown', { exceptionDetails: { text: 'Uncaught', exception: { description: 'Error: no\n    at f' }, ...details } });
  return recorder.errors;
}

/** @type {(url: string, lineNumber: number) => {url: string, lineNumber: number, columnNumber: number}} */
const frame = (url, lineNumber) => ({ url, lineNumber, columnNumber: 0 });
const RECORDER = '__er-recorder';

test('an error has the place that the browser tells', () => {
  assert.deepStrictEqual(toldOf({ url: 'http://folder/script.js', lineNumber: 4 }), ['Error: no (script.js:5)']);
  assert.deepStrictEqual(toldOf({ lineNumber: 0 }), ['Error: no (:1)']);
});

test('one that a function of the recorder hands on has the place of the code that it was called by', () => {
  const callFrames = [frame(RECORDER, 99), frame('', 1), frame('http://folder/script.js', 7)];
  assert.deepStrictEqual(toldOf({ url: RECORDER, lineNumber: 99, stackTrace: { callFrames } }), ['Error: no (script.js:8)']);
});

test('a message that looks like code and places of it keeps the recorder no longer than another one', () => {
  const description = `TypeError: __er.p(...).menu is not a function\n    at ${'('.repeat(300000)}`;
  const told = runInNewContext('call()', { call: () => toldOf({ lineNumber: 0, exception: { description } }) }, { timeout: 5000 });
  assert.deepStrictEqual(told, ['TypeError: ….menu is not a function (:1)']);
});

test('where no other code ran it has the begin of the page', () => {
  assert.deepStrictEqual(toldOf({ url: RECORDER, lineNumber: 99, stackTrace: { callFrames: [frame(RECORDER, 99)] } }), ['Error: no (page.html:1)']);
  assert.deepStrictEqual(toldOf({ url: RECORDER, lineNumber: 99 }), ['Error: no (page.html:1)']);
});
