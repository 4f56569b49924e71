'use strict';
// What a recorded run received, given again to its replays.

const assert = require('node:assert');
const { test } = require('node:test');
const { KeptAnswers, bytesOf, hasKeptAnswer, isKept, LARGEST_KEPT, MOST_KEPT_BYTES } = require('./kept-answers.js');

/** @typedef {import('./paused.js').Paused} Paused */

/** @type {(url: string, facts?: Partial<Paused>, request?: Partial<Paused['request']>) => Paused} */
const event = (url, facts = {}, request = {}) => ({ requestId: '1', frameId: '1', resourceType: 'XHR', ...facts, request: { url, method: 'GET', ...request } });
/** @param {string|Buffer} body */
const answer = (body) => ({ status: 200, headers: [], type: 'text/plain', body: Buffer.from(body), latency: 0 });

test('each request gets the answer of the same one in the recorded run, and what was not requested gets none', () => {
  const kept = new KeptAnswers();
  const [first, second] = [kept.expect(event('http://a/x')), kept.expect(event('http://a/x#hash'))];
  second(answer('two'));
  first(answer('one'));
  for (let k = 0; k < 2; k++) {
    const run = kept.forRun();
    const bodies = [1, 2, 3].map(() => run.take(event('http://a/x'))?.body.toString());
    assert.deepStrictEqual(bodies, ['one', 'two', undefined]);
    assert.strictEqual(run.take(event('http://a/other')), null);
    assert.strictEqual(run.take(event('http://a/x', { resourceType: 'Script' })), null);
    assert.strictEqual(run.take(event('http://a/x', {}, { method: 'POST' })), null);
  }
});

test('bytes are kept up to a limit, those that come again once', () => {
  const kept = new KeptAnswers();
  const large = Buffer.alloc(LARGEST_KEPT);
  for (let k = 0; k < MOST_KEPT_BYTES / LARGEST_KEPT + 2; k++) kept.expect(event('http://a/same'))(answer(large));
  assert.strictEqual(kept.bytes, LARGEST_KEPT);
  for (let k = 0; k < MOST_KEPT_BYTES / LARGEST_KEPT + 2; k++) kept.expect(event(`http://a/${k}`))(answer(large));
  assert.strictEqual(kept.bytes, MOST_KEPT_BYTES);
  kept.expect(event('http://a/larger'))(answer(Buffer.alloc(LARGEST_KEPT + 1)));
  assert.strictEqual(kept.forRun().take(event('http://a/larger')), null);
});

test('an answer that does more than to bring its bytes is not kept', () => {
  const response = (/** @type {number} */ status, name = 'x-name') => event('http://a/x', { responseStatusCode: status, responseHeaders: [{ name, value: 'x' }] });
  assert.deepStrictEqual([200, 204, 206, 302, 304, 404].map((status) => hasKeptAnswer(response(status))), [true, true, true, false, false, true]);
  assert.deepStrictEqual(['Set-Cookie', 'content-range', 'refresh'].map((name) => hasKeptAnswer(response(200, name))), [false, false, false]);
  assert.deepStrictEqual([isKept(event('http://a/x')), isKept(event('http://a/x', {}, { headers: { Range: 'bytes=0-' } }))], [true, false]);
  assert.deepStrictEqual(['EventSource', 'Media', 'Ping', 'Document'].map((resourceType) => isKept(event('http://a/x', { resourceType }))), [false, false, false, true]);
});

test('a text of unknown encoding is kept only if it is one byte for each character', () => {
  assert.deepStrictEqual(bytesOf({ body: 'AQI=', base64Encoded: true }, 'image/png'), Buffer.from([1, 2]));
  assert.deepStrictEqual(bytesOf({ body: 'é', base64Encoded: false }, 'application/json;charset=UTF-8'), Buffer.from('é'));
  assert.strictEqual(bytesOf({ body: '\ufffd', base64Encoded: false }, 'text/plain; charset=utf-8'), null);
  assert.strictEqual(bytesOf({ body: 'é', base64Encoded: false }, 'text/plain; charset=latin1'), null);
  assert.deepStrictEqual(bytesOf({ body: 'plain', base64Encoded: false }, 'text/plain'), Buffer.from('plain'));
});
