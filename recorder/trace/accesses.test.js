'use strict';
// Accesses to objects: put to their actions, and what is left out of them. No browser.

const assert = require('node:assert');
const { test } = require('node:test');
const { Accesses } = require('./accesses.js');

/** @type {(lines: string[]) => import('./accesses.js').Entry[]} */
const entriesOf = (lines) => lines.map((line) => ({ text: line.split('\t')[0], place: line.split('\t')[1] }));
/** @type {(lines: string[], options?: {isLibrary?: import('./accesses.js').IsLibrary}) => string[]} */
const placed = (lines, options) => new Accesses(entriesOf(lines)).entries(options).map(({ text }) => text);

const LOG = ['parse 0 1 plain', 'new 0 2 plain', 'exec 1', 'set 1 0', 'timer 1', 'at 1 var 3000000 total own', 'in 2 w 1\t7', 'in 3 r 1\t8'];

test('each access comes after the start of its action', () => {
  assert.deepStrictEqual(placed(LOG), ['parse 0 1 plain', 'new 0 2 plain', 'exec 1', 'w var 3000000 total', 'set 1 0', 'timer 1', 'r var 3000000 total']);
  assert.strictEqual(new Accesses(entriesOf(LOG)).entries()[3].place, '7');
});

test('a log without such accesses stays as it is', () => {
  assert.deepStrictEqual(placed(['parse 0 1 plain', 'w var 0 x']), ['parse 0 1 plain', 'w var 0 x']);
});

test('of the steps of the parser the first and the last between two others', () => {
  const steps = ['parse 0 1 plain', 'parse 0 2 plain', 'parse 0 3 plain', 'parse 0 4 plain'];
  const log = [...steps, 'timer 1', 'at 1 var 1000001 content', 'in 1 w 1', 'in 2 w 1', 'in 3 w 1', 'in 4 w 1', 'in 5 r 1'];
  const left = (/** @type {string[]} */ lines) => placed(lines).filter((line) => /^[rw] /.test(line)).length;
  assert.strictEqual(left(log), 3);
  const apart = [...steps.slice(0, 2), 'timer 2', ...steps.slice(2), 'timer 1', 'at 1 var 1000001 content', 'in 1 w 1', 'in 2 w 1', 'in 3 r 1', 'in 4 w 1', 'in 5 w 1', 'in 6 r 1'];
  assert.strictEqual(left(apart), 6);
  assert.strictEqual(left(log.slice(0, -1)), 0);
});

test('what only libraries touch', () => {
  const isLibrary = (/** @type {string|undefined} */ place) => place === '7' || place === '8';
  assert.ok(!placed(LOG, { isLibrary }).includes('r var 3000000 total'));
  const accesses = new Accesses(entriesOf(LOG));
  accesses.entries({ isLibrary });
  assert.deepStrictEqual(accesses.lines(), ['2 accesses to 1 object that only libraries touch are left out; --libraries none shows them']);
  assert.ok(placed(LOG, { isLibrary: (/** @type {string|undefined} */ place) => place === '7' }).includes('r var 3000000 total'));
  const ofTree = LOG.map((line) => line.replace('3000000 total own', '1000002 class'));
  assert.ok(placed(ofTree, { isLibrary }).includes('r var 1000002 class'));
});

test('of a whole recording each access in its place, once an action, with what a rule says of it', () => {
  const log = ['parse 0 1 plain', 'exec 1', 'at 1 var 0 n', 'all w 1\t7', 'set 1 0', 'all r 1 own\t8', 'all r 1 own\t9', 'timer 1', 'all r 1', 'all w 1\t9', 'same 1', 'timer 2', 'in 2 w 1\t7', 'in 3 r 1'];
  const whole = new Accesses(entriesOf(log)).whole();
  assert.deepStrictEqual(whole.map(({ text, why }) => (why ? `${text} ${why}` : text)),
    ['parse 0 1 plain', 'exec 1', 'w var 0 n', 'set 1 0', 'r var 0 n own', 'timer 1', 'r var 0 n', 'w var 0 n same', 'timer 2']);
  assert.strictEqual(whole[2].place, '7');
  assert.deepStrictEqual(placed(log), ['parse 0 1 plain', 'exec 1', 'w var 0 n', 'set 1 0', 'timer 1', 'r var 0 n', 'timer 2']);
});

test('a write that left the old value is told as a read, and known as that', () => {
  const entries = new Accesses(entriesOf(['parse 0 1 plain', 'timer 1', 'timer 2', 'at 1 var 0 n', 'in 2 w 1', 'in 3 k 1\t9'])).entries();
  assert.deepStrictEqual(entries.map(({ text, isKept }) => `${text}${isKept ? ' kept' : ''}`), ['parse 0 1 plain', 'timer 1', 'w var 0 n', 'timer 2', 'r var 0 n kept']);
});
