'use strict';
// When er_page replays races by itself.

const assert = require('node:assert');
const { test } = require('node:test');
const { whyNotByItself } = require('./replay-by-itself.js');

/**
 * @param {string[]} lacking
 * @param {object[]} [names]
 * @param {number} [length] of the run, in milliseconds
 */
function recorded(lacking, names = [], length = 3000) {
  return /** @type {import('./recording/recorder.js').Recorder} */ (/** @type {unknown} */ ({ responses: { lacking }, intake: { names }, startTime: 1000, endTime: 1000 + length }));
}

test('races are replayed by themselves if a replay sends nothing again', () => {
  assert.strictEqual(whyNotByItself(recorded([])), '');
  assert.strictEqual(whyNotByItself(recorded([], [{ kind: 'request', method: 'GET' }, { kind: 'element', tag: 'p' }])), '');
});

test('what a replay would send again', () => {
  assert.strictEqual(whyNotByItself(recorded(['POST http://shop.example/cart'])), 'races are not replayed: each replay would send again: POST http://shop.example/cart; --replay does it');
  assert.match(whyNotByItself(recorded(['GET http://shop.example/poll', 'GET http://shop.example/poll', 'GET http://shop.example/next'])), /poll, and 1 more; --replay does it$/);
  assert.match(whyNotByItself(recorded([], [{ kind: 'request', method: 'WebSocket' }])), /again: a connection of a WebSocket; /);
  assert.match(whyNotByItself(recorded([], [{ kind: 'request', method: 'EventSource' }])), /again: a connection of an EventSource; /);
});

test('a page whose runs take long', () => {
  assert.strictEqual(whyNotByItself(recorded([], [], 20000)), '');
  assert.strictEqual(whyNotByItself(recorded([], [], 31400)), 'races are not replayed: a run of the page takes 31 s, and each replay needs several; --replay does it');
});
