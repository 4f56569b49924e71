'use strict';
// Entries of the list in lines: columns, wrapped lines, colors.

const assert = require('node:assert');
const { test } = require('node:test');
const { linesOfEntry, styleOf, wrapped } = require('./entry-lines.js');

const SIDE = { verb: 'writes', what: 'cart', place: 'shop.js:16:3', actor: 'timeout hint, scheduled at shop.js:15:1', also: '', event: '', act: '', at: null, own: null };
/** @type {import('./entries.js').Entry} */
const ENTRY = {
  place: 'shop.js:16', sentence: 'What is typed is overwritten', look: 'overwritten field', part: 'loses what a user does', name: '0123456789ab', more: 'and 1 more race',
  sides: [SIDE, { ...SIDE, verb: 'reads', place: 'a.js:1:1', actor: '' }], details: [['recorded', 'the user came\u001b[2J last']],
};

test('the place is first, the pattern last, and the sides are in columns', () => {
  const [head, first, second, recorded, name, ...rest] = linesOfEntry(ENTRY, { hasColor: false, width: 100, isTerminal: false });
  assert.match(head, /^shop\.js:16 {2}What is typed is overwritten +overwritten field$/);
  assert.strictEqual(head.length, 100);
  assert.strictEqual(first, '    writes  cart  shop.js:16:3  timeout hint, scheduled at shop.js:15:1');
  assert.strictEqual(second, '    reads   cart  a.js:1:1');
  assert.strictEqual(recorded, '    recorded: the user came\\u{1b}[2J last');
  assert.strictEqual(name, '    0123456789ab (for races.known), and 1 more race');
  assert.deepStrictEqual(rest, []);
});

test('on a narrow terminal no line is wider, and a place is never cut', () => {
  const lines = linesOfEntry({ ...ENTRY, place: `${'x'.repeat(50)}:16` }, { hasColor: false, width: 40, isTerminal: true });
  assert.ok(lines[0].startsWith(`${'x'.repeat(50)}:16`));
  assert.ok(lines.slice(1, -1).every(({ length }) => length <= 40), lines.join('\n'));
});

test('colors are for a terminal, unless NO_COLOR is set, or as --color has it', () => {
  assert.deepStrictEqual([styleOf({ isTTY: true, columns: 80 }, {}), styleOf({ isTTY: true, columns: 300 }, { NO_COLOR: '1' }), styleOf({}, {})], [
    { isTerminal: true, hasColor: true, width: 80 }, { isTerminal: true, hasColor: false, width: 100 }, { isTerminal: false, hasColor: false, width: 100 },
  ]);
  assert.deepStrictEqual(['always', 'never'].map((color) => styleOf({ isTTY: color === 'never' }, {}, color).hasColor), [true, false]);
  assert.ok(linesOfEntry(ENTRY, { hasColor: true, width: 100, isTerminal: true })[0].startsWith('\u001b[1mshop.js:16\u001b[22m  What'));
});

test('lines are wrapped between words', () => {
  assert.deepStrictEqual(wrapped('  one two three', 9, '    '), ['  one two', '    three']);
});
