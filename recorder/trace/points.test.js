'use strict';
// Points of the log: which become dispatches, and how actions are counted then.

const assert = require('node:assert');
const { test } = require('node:test');
const { Intake } = require('./intake.js');

/** @param {string[]} lines */
function entriesOf(lines) {
  const intake = new Intake();
  intake.take(lines.join('\n'));
  return intake.entries.map(({ text }) => text);
}

test('a point that nothing names is nothing, and the actions after it are counted without it', () => {
  assert.deepStrictEqual(entriesOf(['parse 0 1 plain', 'set 1 0 0', 'timer 1', 'point 0 7 8', 'in 3 w 5', 'into 3 on 1', 'dcl 1 0', 'in 4 r 5']),
    ['parse 0 1 plain', 'set 1 0 0', 'timer 1', 'in 2 w 5', 'into 2 on 1', 'dcl 1 0', 'in 3 r 5']);
});

test('a point that is named is an inline dispatch with the notes, and what follows is in the action after it', () => {
  assert.deepStrictEqual(entriesOf(['parse 0 1 plain', 'set 1 0 0', 'timer 1', 'point 0 7 8', 'in 3 w 5', 'timer 2', 'since 8 on 3', 'in 4 r 5']),
    ['parse 0 1 plain', 'set 1 0 0', 'timer 1', 'new 0 7 plain', 'inline 8 7 settled', 'on 3', 'close 8', 'back 8', 'in 5 w 5', 'timer 2', 'in 6 r 5']);
});
