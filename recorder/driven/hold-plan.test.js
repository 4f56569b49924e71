'use strict';
// How a page of a suite is found in another run, and what its code requested.

const assert = require('node:assert');
const { test } = require('node:test');
const { EditedText } = require('../instrument/edits.js');
const { askedOf, logOf, spotOf } = require('./asked.js');
const { addressKey, movedTo } = require('./hold-plan.js');

test('an address of this machine is the same at any port, another one is not', () => {
  assert.strictEqual(addressKey('http://127.0.0.1:8080/a?b=1'), addressKey('http://localhost:9/a?b=1'));
  assert.notStrictEqual(addressKey('http://127.0.0.1:8080/a?b=1'), addressKey('http://127.0.0.1:8080/a?b=2'));
  assert.notStrictEqual(addressKey('https://a.example/'), addressKey('https://a.example:8443/'));
  const value = { address: 'http://127.0.0.1:80800/x', key: 'w http://127.0.0.1:8080/a.js 3' };
  assert.deepStrictEqual(movedTo(value, 'http://127.0.0.1:8080/page', 'http://127.0.0.1:9/page'), { ...value, key: 'w http://127.0.0.1:9/a.js 3' });
  assert.strictEqual(movedTo(value, 'http://127.0.0.1:8080/page', 'http://127.0.0.1:8080/other'), value);
});

test('what code requested, at its places in the texts, and these in another copy', () => {
  /** @param {string} mark */
  const sourcesWith = (mark) => {
    const copy = new EditedText('go(1);go(2)', [{ start: 0, end: 0, insert: mark }, { start: 6, end: 6, insert: mark }]);
    return /** @type {import('../texts/sources.js').Sources} */ (/** @type {unknown} */ ({ copyAt: (/** @type {string} */ address) => (address === 'http://a/a.js' ? { copy } : null) })); // what is read
  };
  const entries = [{ text: 'early set 1 5 0', place: 'http://a/a.js:1:3' }, { text: 'r var 0 x' }, { text: 'post 4', place: 'http://a/a.js:1:11', stack: 7 }];
  const names = [{ kind: 'stack', number: 7, places: 'http://a/a.js:1:11\nhttp://b/:2:3' }];
  const load = /** @type {import('./load.js').Load} */ (/** @type {unknown} */ ({ intake: { entries, names }, sources: sourcesWith('mm') })); // so too
  const asked = askedOf(load);
  assert.deepStrictEqual(asked, [['set', '1', 'http://a/a.js:1:1', ''], ['post', '4', 'http://a/a.js:1:7', 'http://a/a.js:1:7\nhttp://b/:2:3']]);
  assert.deepStrictEqual(logOf(asked), {
    entries: [{ text: 'set 1', place: 'http://a/a.js:1:1' }, { text: 'post 4', place: 'http://a/a.js:1:7', stack: '0' }],
    names: [{ kind: 'stack', number: 0, places: 'http://a/a.js:1:7\nhttp://b/:2:3' }],
  });
  assert.deepStrictEqual(spotOf(sourcesWith('mmmm'), 'http://a/a.js:1:7'), { line: 'http://a/a.js:1:', from: 11, to: 15 });
  assert.strictEqual(spotOf(sourcesWith(''), 'http://b/:2:3'), null);
});
