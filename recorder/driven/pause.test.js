'use strict';
// A recording waits for a pause, but not long, and not when the browser has ended.

const assert = require('node:assert');
const { test } = require('node:test');
const { sleep } = require('../common/time.js');
const { Pause } = require('./pause.js');

/** @param {Promise<void>} wait */
async function timeOf(wait) {
  const begin = Date.now();
  await wait;
  return Date.now() - begin;
}

test('a pause is waited for', async () => {
  const pause = new Pause();
  assert.ok(await timeOf(pause.wait(Date.now())) < 1000, 'nothing came');
  pause.note();
  assert.ok(await timeOf(pause.wait(Date.now())) >= 140);
  pause.note();
  const busy = pause.wait(Date.now());
  for (const until = Date.now() + 400; Date.now() < until;); // work that keeps the process busy
  setImmediate(() => pause.note()); // what came meanwhile
  assert.ok(await timeOf(busy) >= 140);
});

test('not long, and not after the end', { timeout: 10000 }, async () => {
  const pause = new Pause();
  const notes = setInterval(() => pause.note(), 10);
  const longest = await timeOf(pause.wait(Date.now()));
  assert.ok(longest >= 1900 && longest < 5000, String(longest));
  const last = pause.wait(Date.now());
  await sleep(50);
  pause.end();
  assert.ok(await timeOf(last) < 1500);
  clearInterval(notes);
});
