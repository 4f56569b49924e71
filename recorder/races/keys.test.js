'use strict';
// Names that hold in each run of a page, and the act of a user from which an event comes.

const assert = require('node:assert');
const { test } = require('node:test');
const { keysOf } = require('../test/keys-support.js');

test('an access has one name in two runs, whatever its numbers', () => {
  const one = keysOf(['parse 0 2 inline', 'exec 2', 'set 1 5', 'set 2 0', 'timer 2', 'w var 0 x', 'timer 1', 'w var 0 x'], { 4: [0, 2, 3], 5: [0, 2, 3], 7: [0, 1, 1], 9: [0, 1, 1] });
  const other = keysOf(['parse 0 1 plain', 'parse 0 2 inline', 'exec 2', 'set 7 5', 'set 9 0', 'timer 7', 'w var 0 x', 'timer 9', 'w var 0 x'], { 5: [0, 2, 3], 6: [0, 2, 3], 8: [0, 1, 1], 10: [0, 1, 1] });
  const first = one.identify({ location: 'var 0 x', mode: 'w', action: 2, line: 7 });
  const second = one.identify({ location: 'var 0 x', mode: 'w', action: 3, line: 9 });
  assert.notStrictEqual(first.key, second.key);
  assert.deepStrictEqual(other.find(first), { action: 4, line: 10 });
  assert.deepStrictEqual(other.find(second), { action: 3, line: 8 });
  assert.strictEqual(other.find({ ...second, nth: 2 }), null);
});

test('an object has one name, wherever it is used first, and a write that changes nothing too', () => {
  const lines = (/** @type {string[]} */ first, /** @type {string[]} */ second) => ['parse 0 2 inline', 'exec 2', 'set 1 5', 'set 2 0', ...first, ...second];
  /** @type {(line: number) => Partial<import('./types').NamesOfTrace>} */
  const objects = (line) => ({ objects: { 3000000: { made: 'object', text: `o${line}`, place: [0, line, 1] } } });
  const one = keysOf(lines(['timer 2', 'w var 3000000 x'], ['timer 1', 'r var 3000000 x']), { 4: [0, 2, 3], 5: [0, 2, 9], 7: [0, 1, 1], 9: [0, 1, 2] }, objects(1));
  const other = keysOf(lines(['timer 1', 'w var 3000000 x'], ['timer 2', 'r var 3000000 x']), { 4: [0, 2, 3], 5: [0, 2, 9], 7: [0, 1, 2], 9: [0, 1, 1] }, objects(2));
  const first = one.identify({ location: 'var 3000000 x', mode: 'w', action: 2, line: 7 });
  const second = one.identify({ location: 'var 3000000 x', mode: 'r', action: 3, line: 9 });
  assert.deepStrictEqual(other.find(first), { action: 3, line: 9 });
  assert.deepStrictEqual(other.find(second), { action: 2, line: 7 });
});

test('a lookup of handlers is found if no handler was set', () => {
  /** @type {Partial<import('./types').NamesOfTrace>} */
  const facts = { elements: { 3: { tag: 'button', id: 'go' } }, dispatches: { 1: { type: 'click', act: 1000 } }, handlers: { 5: { type: 'click', target: 3 } } };
  const one = keysOf(['parse 0 3 plain', 'on 5', 'w slot 3 click/5', 'fire 1 3 click', 'r slot 3 click', 'r slot 3 click/5', 'close 1'], {}, facts);
  const other = keysOf(['parse 0 3 plain', 'fire 1 3 click', 'close 1'], {}, { ...facts, handlers: {} });
  const side = one.identify({ location: 'slot 3 click/5', mode: 'r', action: 1, line: 7 });
  assert.deepStrictEqual(other.find(side), { action: 1, line: 3 });
});

test('the act of a user from which an event comes', () => {
  /** @type {Partial<import('./types').NamesOfTrace>} */
  const facts = { elements: { 3: { tag: 'button', id: 'go' } }, dispatches: { 1: { type: 'mouseup', act: 1000 }, 3: { type: 'load' } } };
  const keys = keysOf(['parse 0 3 plain', 'fire 1 3 mouseup', 'close 1', 'new 0 4 plain', 'inline 2 4 click', 'close 2', 'back 2', 'fire 3 3 load'], {}, facts);
  const actOf = (/** @type {number} */ number) => keys.actOf(keys.actions.list[number]);
  assert.deepStrictEqual(keys.actions.list.map(({ words }) => words[0]), ['parse', 'fire', 'close', 'inline', 'close', 'back', 'fire']);
  assert.deepStrictEqual([0, 1, 3, 4, 6].map(actOf), [0, 1000, 1000, 1000, 0]);
});
