'use strict';
// Where the parser is paused by chance, and the numbers of a seed.

const assert = require('node:assert');
const { test } = require('node:test');
const { seeded } = require('../common/seeded.js');
const { ChaosHolds } = require('./chaos.js');

const PAGE = '<!doctype html><html><head><title>t</title></head><body><p>1</p><svg><script></script></svg><template><p></p></template><table><colgroup><col></colgroup></table><p>2</p></body></html>';
const SEEDS = Array.from({ length: 60 }, (_, k) => k);

test('a seed gives the same pauses each time, others give others', () => {
  const pausesOf = (/** @type {number} */ seed) => new ChaosHolds(seed).insertions('http://localhost/a.html', PAGE);
  for (const seed of SEEDS) assert.deepStrictEqual(pausesOf(seed), pausesOf(seed));
  assert.ok(new Set(SEEDS.map((seed) => JSON.stringify(pausesOf(seed)))).size > 10);
});

test('a pause is before an element that the parser makes in the same way after a script', () => {
  const starts = new Set(SEEDS.flatMap((seed) => new ChaosHolds(seed).insertions('http://localhost/a.html', PAGE).map(({ start }) => PAGE.slice(start).match(/^<\w+/)?.[0])));
  assert.deepStrictEqual([...starts].sort(), ['<p', '<table', '<template', '<title']);
});

test('a page gets its pauses once, with the same numbers if it comes again; a page in an attribute gets none', () => {
  const holds = new ChaosHolds(SEEDS.find((seed) => new ChaosHolds(seed).insertions('http://localhost/a.html', PAGE).length > 1) || 0);
  const first = holds.insertions('http://localhost/a.html', PAGE);
  assert.match(first[0].insert, /^<script data-er-hold nonce="__er-hold" src="http:\/\/localhost\/__er-hold\?1"><\/script>$/);
  assert.deepStrictEqual(holds.insertions('http://localhost/a.html#part', PAGE), first);
  assert.deepStrictEqual(holds.insertions('http://localhost/a.html (srcdoc)', PAGE), []);
  assert.deepStrictEqual(holds.insertions('about:blank', PAGE), []);
});

test('the numbers of a seed are spread from 0 to 1', () => {
  const numbers = Array.from({ length: 1000 }, (_, k) => seeded(7, `request ${k}`));
  assert.ok(numbers.every((one) => one >= 0 && one < 1));
  const mean = numbers.reduce((sum, one) => sum + one, 0) / numbers.length;
  assert.ok(mean > 0.45 && mean < 0.55, String(mean));
});
