'use strict';
// What keeps a page going.

const assert = require('node:assert');
const { test } = require('node:test');
const { mostFrequent, countTurns, hasOnlyTurns } = require('./turns.js');

test('what keeps a page going, and how often it came', () => {
  const ticks = (/** @type {number} */ count) => Array(count).fill({ text: 'tick 1', place: undefined });
  const entries = [{ text: 'every 1 50', place: 'clock' }, { text: 'early set 1 0', place: 'once' }, { text: 'timer 1' }, ...ticks(7)];
  assert.deepStrictEqual(mostFrequent(entries), { word: 'every', place: 'clock', count: 7 });
  assert.strictEqual(mostFrequent(entries.slice(0, 6)), null);
  assert.strictEqual(countTurns(entries, { word: 'set', place: 'once' }), 1);
});

test('what came more often, but is over, does not keep a page going', () => {
  const shown = Array.from({ length: 40 }, (_, k) => [{ text: `set ${k + 10} 5`, place: 'show' }, { text: `timer ${k + 10}` }]).flat();
  const pulses = Array.from({ length: 8 }, (_, k) => [{ text: `set ${k + 60} 500`, place: 'pulse' }, { text: `timer ${k + 60}` }]).flat();
  assert.deepStrictEqual(mostFrequent([...shown, ...pulses]), { word: 'set', place: 'pulse', count: 8 });
});

test('whether a page does nothing any more but what keeps it going', () => {
  const pulses = (/** @type {number} */ count) => Array.from({ length: count }, (_, k) => [{ text: `set ${k} 500`, place: 'pulse' }, { text: `timer ${k}` }]).flat();
  const entries = [{ text: 'exec 1' }, ...pulses(7)];
  assert.deepStrictEqual([hasOnlyTurns(entries, 9), hasOnlyTurns(entries, 0), hasOnlyTurns(entries, entries.length)], [true, false, false]);
  assert.ok(!hasOnlyTurns([...entries, { text: 'fire 1 click' }], 9));
  assert.ok(!hasOnlyTurns([{ text: 'exec 1' }, ...pulses(3)], 1), 'not often enough yet');
});
