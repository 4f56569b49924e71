'use strict';
// What can be held back for an action, and which one it is in another run.

const assert = require('node:assert');
const { test } = require('node:test');
const { keysOf, sourceOf } = require('../../test/keys-support.js');
const { countedIn } = require('../reversal.js');
const { Causes } = require('./causes.js');

test('what can be held back for an action, the nearest first', () => {
  /** @type {Partial<import('../../races/types').NamesOfTrace>} */
  const facts = { elements: { 1: { tag: 'p', place: [0, 1, 1] }, 2: { tag: 'script', place: [0, 2, 1], loads: 'http://localhost/a.js', source: 'a.js' } }, timeouts: { 1: { place: [0, 2, 3] } } };
  const keys = keysOf(['parse 0 1 plain', 'parse 0 2 sync', 'exec 2', 'set 1 5', 'timer 1', 'w var 0 x'], { 5: [0, 2, 3] }, facts);
  const causes = new Causes(keys, { entries: [{ text: 'set 1 5 0', place: 'here' }], names: [] }, [], sourceOf);
  assert.deepStrictEqual(causes.of(3).map(({ means, action }) => [means, action]), [['callback', 3], ['response', 2], ['parser', 1]]);
  assert.deepStrictEqual(causes.of(3)[0], { means: 'callback', word: 'set', place: 'here', way: '', nth: 1, of: 1, action: 3, words: 'the timeout set at page.html:2 is put off' });
});

/**
 * A script that sets timeouts, all at one place: their numbers as they are set, with the numbers of their stacks.
 * @param {{[number: string]: string|undefined}} stacks
 */
function causesOfTimeouts(stacks) {
  const numbers = Object.keys(stacks);
  const lines = ['parse 0 2 inline', 'exec 2', ...numbers.map((number) => `set ${number} 5`), ...numbers.flatMap((number) => [`timer ${number}`, `w var 0 x${number}`])];
  const keys = keysOf(lines, Object.fromEntries(numbers.map((number, k) => [4 + k, /** @type {[number, number, number]} */ ([0, 2, 3])])));
  const entries = numbers.map((number) => ({ text: `set ${number} 5 0`, place: 'here', stack: stacks[number] }));
  const names = ['one\ntwo', 'one\nthree'].map((places, k) => ({ kind: 'stack', number: k + 1, places }));
  return { keys, causes: new Causes(keys, { entries, names }, [], sourceOf) };
}

test('of several timeouts at one place, which one it is: by the way of the calls, else by their order', () => {
  const { causes } = causesOfTimeouts({ 1: '1', 2: '2', 3: '1', 4: undefined });
  assert.deepStrictEqual([2, 3, 4, 5].map((action) => causes.of(action)[0]).map(({ way, nth, of }) => [way, nth, of]), [['one\ntwo', 1, 2], ['one\nthree', 1, 1], ['one\ntwo', 2, 2], ['', 1, 1]]);
});

test('a timeout that another run sets in another order is counted as in that run', () => {
  const recorded = causesOfTimeouts({ 1: '1', 2: '1' });
  const other = causesOfTimeouts({ 1: '2', 2: '1' });
  const side = recorded.keys.identify({ location: 'var 0 x2', mode: 'w', action: 3, line: 9 });
  const [cause] = recorded.causes.of(3);
  const reversal = /** @type {import('../types').Reversal} */ (/** @type {unknown} */ ({ cause, sides: [side] })); // as far as it is read
  const found = (/** @type {typeof other} */ one) => {
    const [all, run] = /** @type {[import('../recorded.js').Recorded, import('../types').FurtherRun]} */ (/** @type {unknown} */ ([{ causesIn: () => one.causes }, one])); // so too
    return countedIn(all, run, reversal);
  };
  assert.strictEqual(found(recorded), null);
  assert.deepStrictEqual(found(other), { ...cause, nth: 1, of: 1 });
});

test('events of the browser, and what can hold them back', () => {
  /** @type {Partial<import('../../races/types').NamesOfTrace>} */
  const facts = {
    elements: { 2: { tag: 'script', place: [0, 2, 1] }, 5: { tag: 'video', id: 'film', source: 'a.webm' }, 7: { tag: 'Worker' } },
    dispatches: { 1: { type: 'canplay' }, 2: { type: 'canplay' }, 3: { type: 'message' } },
    handlers: { 4: { type: 'message', target: 7 } },
  };
  const keys = keysOf(['parse 0 2 inline', 'exec 2', 'on 4', 'fire 1 5 canplay', 'fire 2 5 canplay', 'fire 3 7 message', 'run 3 0 4'], {}, facts);
  const causes = new Causes(keys, { entries: [{ text: 'on 4', place: 'here' }], names: [] }, [], sourceOf);
  const [film] = causes.of(3);
  assert.deepStrictEqual([film.means, film.event], ['event', { type: 'canplay', nth: 2, tag: 'video', id: 'film', source: 'a.webm' }]);
  const [message] = causes.of(5);
  assert.deepStrictEqual([message.means, message.word, message.place, message.event], ['event', 'on', 'here', { type: 'message', nth: 1 }]);
});
