'use strict';
// How a log is written in each version of the format, and what is left out for the limit on actions. No browser.

const assert = require('node:assert');
const { test } = require('node:test');
const { keepWithin } = require('./limits.js');
const { Spelling } = require('./spelling.js');

/**
 * @param {string[]} lines
 * @param {number} version
 */
const spell = (lines, version) => new Spelling(lines.map((text) => ({ text, place: undefined })), version).records().map(({ text }) => text);

test('notes go to where they belong', () => {
  const lines = ['parse 0 1 plain', 'new 0 2 plain', 'parse 0 3 plain', 'early set 1 0 unknown', 'beside 2 new 0 4 plain', 'beside 4 new 0 5 plain'];
  assert.deepStrictEqual(spell(lines, 1), ['parse 0 1 plain', 'every 3000000001 0', 'new 0 2 plain', 'new 0 4 plain', 'new 0 5 plain', 'parse 0 3 plain']);
});

test('what nothing that ran has made in a frame comes after its document', () => {
  const lines = ['parse 0 1 plain', 'early new 2 8 async', 'early new 0 9 plain', 'new 0 2 plain', 'parse 0 3 frame 1', 'beside 3 new 0 4 frame 2', 'beside 8 new 2 10 plain', 'exec 8'];
  assert.deepStrictEqual(spell(lines, 3),
    ['parse 0 1 plain', 'new 0 9 plain', 'new 0 2 plain', 'parse 0 3 frame 1', 'new 0 4 frame 2', 'new 2 8 async', 'new 2 10 plain', 'exec 8']);
});

test('a dispatch looks at each slot that was ever written', () => {
  const lines = ['parse 0 1 plain', 'look 1 click', 'w slot 1 click/7', 'w slot 1 a/b/8', 'look 1 a/b'];
  assert.deepStrictEqual(spell(lines, 1), ['parse 0 1 plain', 'r slot 1 click', 'r slot 1 click/7', 'w slot 1 click/7', 'w slot 1 a/b/8', 'r slot 1 a/b', 'r slot 1 a/b/8']);
});

test('an event that does not bubble looks at slots of handlers that capture', () => {
  const lines = ['parse 0 1 plain', 'look 1 focus', 'look 2 focus capture', 'w slot 2 focus', 'w slot 2 focus/7', 'w slot 2 focus/8', 'captures 8'];
  assert.deepStrictEqual(spell(lines, 1), ['parse 0 1 plain', 'r slot 1 focus', 'r slot 2 focus/8', 'w slot 2 focus', 'w slot 2 focus/7', 'w slot 2 focus/8']);
});

test('timeouts of two windows are not compared', () => {
  const lines = ['parse 0 1 plain', 'set 1 5 0', 'set 2 5 1', 'parse 0 2 plain', 'set 3 5 1', 'timer 1', 'timer 2', 'timer 3'];
  assert.deepStrictEqual(spell(lines, 1).slice(1), ['set 1 5', 'every 3000000002 5', 'parse 0 2 plain', 'set 3 5', 'timer 1', 'tick 3000000002', 'timer 3']);
  assert.deepStrictEqual(spell(lines, 2).slice(1), ['every 3000000001 5', 'set 2 5', 'parse 0 2 plain', 'set 3 5', 'tick 3000000001', 'timer 2', 'timer 3']);
});

test('messages and animation frames have records of their own in version 3', () => {
  const lines = ['parse 0 1 plain', 'on 3', 'ask 1', 'post 1 0 5', 'anim 1', 'message 1 2 5', 'run 2 0 3', 'w var 0 x', 'close 2'];
  assert.deepStrictEqual(spell(lines, 2).slice(2), ['every 1 0', 'new 0 5 plain', 'tick 1', 'fire 2 5 message', 'run 2 0 3', 'w var 0 x', 'close 2']);
  assert.deepStrictEqual(spell(lines, 3).slice(2),
    ['ask 1', 'post 1', 'anim 1', 'message 1', 'new 0 5 plain', 'inline 2 5 message', 'run 2 0 3', 'w var 0 x', 'close 2', 'back 2']);
});

test('a note of an action that is over stands at its end', () => {
  const lines = ['parse 0 1 plain', 'parse 0 2 plain', 'w elem 0 a', 'parse 0 3 plain', 'into 2 on 4', 'into 2 new 0 5 plain', 'into 3 on 6', 'beside 5 new 0 7 plain'];
  assert.deepStrictEqual(spell(lines, 3),
    ['parse 0 1 plain', 'parse 0 2 plain', 'w elem 0 a', 'on 4', 'new 0 5 plain', 'new 0 7 plain', 'parse 0 3 plain', 'on 6']);
});

test('a module is the run of its element, or of what was asked for', () => {
  const lines = ['parse 0 4 defer', 'module 1', 'is 1 4', 'every 2 0', 'asked 2', 'module 2', 'module 3'];
  assert.deepStrictEqual(spell(lines, 2), ['parse 0 4 defer', 'every 3500000000 0', 'exec 4', 'every 2 0', 'tick 2', 'tick 3500000000']);
});

test('over the limit quiet parse steps are left out, then the end', () => {
  const records = ['parse 0 1 plain', 'parse 0 2 plain', 'w elem 0 a', 'parse 0 3 plain', 'parse 0 4 plain', 'fire 1 4 click', 'close 1'].map((text) => ({ text }));
  /** @param {number} most */
  const texts = (most) => keepWithin(records, most).records.map(({ text }) => text);
  assert.deepStrictEqual(texts(6).length, 7);
  assert.deepStrictEqual(texts(5), ['parse 0 1 plain', 'parse 0 2 plain', 'w elem 0 a', 'parse 0 4 plain', 'fire 1 4 click', 'close 1']);
  assert.deepStrictEqual(keepWithin(['parse 0 1 plain', 'w var 0 a', 'r var 0 a', 'w var 0 b'].map((text) => ({ text })), 9, 2).cut, 1);
  assert.deepStrictEqual(texts(4), ['parse 0 1 plain', 'parse 0 2 plain', 'w elem 0 a', 'parse 0 4 plain', 'fire 1 4 click']);
});
