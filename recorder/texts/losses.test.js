'use strict';
// The lines about what a recording lacks of its page.

const assert = require('node:assert');
const { test } = require('node:test');
const { lossesOf } = require('./losses.js');
const { Sources } = require('./sources.js');

test('each kind of loss has its words, and the page comes first', () => {
  const sources = new Sources('objects');
  sources.rewriteScript('http://localhost/a.js', 'a b');
  sources.count(sources.missed, 'SVG scripts');
  sources.count(sources.dropped, 'integrity attributes');
  sources.count(sources.dropped, 'integrity attributes');
  sources.count(sources.leftOut, 'source maps not read');
  assert.deepStrictEqual(lossesOf({ missed: { 'accesses while nothing recorded ran': 3 } }, sources), [
    'accesses while nothing recorded ran: 3',
    'scripts whose syntax is not known, kept as they are: 1 (http://localhost/a.js:1:3: Unexpected token)',
    'SVG scripts, kept as they are: 1',
    'integrity attributes dropped in the copy that the page sees: 2',
    'source maps not read: 1',
  ]);
});

test('nothing is said of a recording that lacks nothing', () => {
  assert.deepStrictEqual(lossesOf({ missed: {} }, new Sources('objects')), []);
});
