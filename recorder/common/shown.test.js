'use strict';
// Texts of a page on a terminal, in the list and in the view: no command of a terminal, one line, not too long. No browser.

const assert = require('node:assert');
const { test } = require('node:test');
const { Actions } = require('../races/actions.js');
const { shown, withoutCommands } = require('./shown.js');
const { Words } = require('../races/words.js');

const ESCAPE = '\u001b[2J';

test('commands are told by their numbers', () => {
  assert.strictEqual(withoutCommands(`${ESCAPE}a\nb\u009b\u202e\u2028\ud800 é😀\u200d`), '\\u{1b}[2Ja\\u{a}b\\u{9b}\\u{202e}\\u{2028}\\u{d800} é😀\u200d');
  assert.strictEqual(shown('x'.repeat(1000)).length, 261);
  assert.strictEqual(shown(`${'x'.repeat(259)}😀y`), `${'x'.repeat(259)}\\u{d83d}…`);
});

test('words of a page with odd names', () => {
  const evil = `${ESCAPE}\n${'x'.repeat(1000)}`;
  /** @type {import('../races/types').NamesOfTrace} */
  const names = {
    files: [{ address: `http://localhost/${ESCAPE}.html` }], places: {}, documents: {}, timeouts: { 1: { function: evil, place: [0, 1, 1] } }, intervals: {}, dispatches: {},
    elements: { 1: { tag: 'HTMLDocument' }, 2: { tag: 'p', id: evil }, 3: { tag: 'script', source: evil } }, handlers: { 1: { type: evil, function: evil } },
    requests: { 1: { address: evil } }, objects: { 3000001: { text: evil, made: evil, name: evil } },
  };
  const trace = ['webtrace 3', 'parse 0 1 plain', 'parse 0 2 plain', 'parse 0 3 sync', 'exec 3', 'set 1 5', 'send 1', 'timer 1', 'reply 1 1', `fire 2 2 %1B%0A`, 'run 2 0 1'].join('\n');
  const words = new Words(names, new Actions(trace));
  const told = [...words.actions.list.map(({ number }) => words.action(number)), words.location('var 3000001 %1B%0Ax').text, words.location('elem 0 %1B').text, words.location('slot 2 %1B').text, words.fileName(0)];
  assert.ok(told.length >= 10);
  const asked = new Words({ ...names, requests: { 1: { address: 'http://localhost/data/list.json?from=/a/b#c/d' }, 2: { address: 'http://localhost/' } } }, new Actions(trace));
  assert.deepStrictEqual([asked.request('1'), asked.request('2')], ['the request for list.json?from=/a/b#c/d', 'the request for localhost/']);
  for (const text of told) {
    assert.match(text, /^[ -~…]+$/);
    assert.ok(text.length < 1000, text);
  }
});
