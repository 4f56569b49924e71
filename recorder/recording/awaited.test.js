'use strict';
// What a page has scheduled, by its log.

const assert = require('node:assert');
const { test } = require('node:test');
const { Awaited } = require('./awaited.js');

/** @typedef {import('./awaited.js').Name} Name */

/**
 * What a page awaits, by its log: each look has the time and the lines that came, and returns whether something might come in the next second.
 * @param {[now: number, ...lines: (string|Name)[]][]} looks
 */
function looksAt(...looks) {
  /** @type {{entries: {text: string}[], names: Name[]}} */
  const log = { entries: [], names: [] };
  const awaited = new Awaited(/** @type {import('../trace/intake.js').Intake} */ (/** @type {unknown} */ (log))); // as far as it is read
  return looks.map(([now, ...lines]) => {
    lines.forEach((line) => (typeof line === 'string' ? log.entries.push({ text: line }) : log.names.push(line)));
    return awaited.mayComeUntil(now + 1000, now);
  });
}

test('what may still come by itself, as a page has asked for it', () => {
  assert.deepStrictEqual(looksAt([0], [10, 'parse 0 2 inline', 'w var 0 x']), [false, false]);
  assert.deepStrictEqual(looksAt([0, 'set 1 500 0'], [400], [500, 'timer 1'], [600]), [true, true, false, false]);
  assert.deepStrictEqual(looksAt([0, 'early set 1 5000 unknown'], [3900], [4000, 'w var 0 x'], [5100], [5200]), [false, true, true, true, false]);
  assert.deepStrictEqual(looksAt([0, 'every 1 3000'], [2500], [3000, 'tick 1'], [5500]), [false, true, false, true]);
  assert.deepStrictEqual(looksAt([0, 'ask 1', 'post 2 0 7'], [20, 'anim 1'], [30, 'message 2 1 7'], [40]), [true, true, false, false]);
  assert.deepStrictEqual(looksAt([0, 'every 1 0', { kind: 'interval', number: '1', why: 'requestIdleCallback' }], [900], [901, 'tick 1']), [true, true, false]);
  assert.deepStrictEqual(looksAt([0, { kind: 'element', number: 3, tag: 'HTMLDocument' }, { kind: 'element', number: 4, tag: 'button' }]), [false]);
  for (const tells of [{ kind: 'element', number: 3, tag: 'Worker' }, { kind: 'request', number: 1, method: 'IDBFactory.open' }]) {
    assert.deepStrictEqual(looksAt([0, tells], [9000]), [true, true]);
  }
});
