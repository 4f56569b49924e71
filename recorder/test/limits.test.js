'use strict';
// What the program can't take is left out by location, the largest first, and the rest is judged. No browser.

const assert = require('node:assert');
const fs = require('node:fs');
const path = require('node:path');
const { test } = require('node:test');
const { sizesOf, beyond } = require('../trace/limits.js');
const { judgeWithin } = require('../races/within-limits.js');
const { temporaryFolder } = require('./cleanup.js');

const BEGIN = ['parse 0 1 inline', 'exec 1'];
/**
 * Timeouts that nothing orders: each is set by an action of its own.
 * @param {number} count
 */
function lonely(count) {
  const sets = Array.from({ length: count }, (none, k) => `every ${k} 0`);
  return { sets, begin: (/** @type {number} */ k) => `tick ${k}` };
}

/**
 * The report of a trace, or the refusal, and what was left out of the trace.
 * @param {string} file
 */
async function reportWithin(file) {
  const { report, fault, leftOut } = await judgeWithin(file);
  if (!report) throw new Error(fault);
  return { report, leftOut };
}

test('pairs are those of two actions, of which one writes', () => {
  const sizes = sizesOf([...BEGIN, 'w var 0 a', 'r var 0 a', 'w var 0 a', 'timer 1', 'r var 0 a', 'r var 0 b', 'timer 2', 'w var 0 a', 'r var 0 b']);
  assert.deepStrictEqual(sizes.map(({ location, accesses, pairs }) => [location, accesses, pairs]), [['var 0 a', 4, 4], ['var 0 b', 2, 0]]);
});

test('those with the most pairs go first, and no more than have to', () => {
  const lines = [...BEGIN, 'w var 0 a', 'w var 0 b', 'w var 0 c', 'timer 1', 'w var 0 a', 'w var 0 b', 'timer 2', 'w var 0 a', 'w var 0 b', 'timer 3', 'w var 0 b', 'w var 0 c'];
  assert.deepStrictEqual(beyond(lines, { mostPairs: 10 }), []);
  assert.deepStrictEqual(beyond(lines, { mostPairs: 5 }).map(({ location }) => location), ['var 0 b']);
  assert.deepStrictEqual(beyond(lines, { mostPairs: 3 }).map(({ location, pairs }) => [location, pairs]), [['var 0 b', 6], ['var 0 a', 3]]);
  assert.deepStrictEqual(beyond(lines, { mostAccesses: 4 }).map(({ location }) => location), ['var 0 b', 'var 0 a']);
});

test('a trace of too many races is judged without its counter, and its names keep their lines', async () => {
  const file = path.join(temporaryFolder('limits-test'), 'page.trace');
  const { sets, begin } = lonely(400);
  const actions = sets.flatMap((none, k) => [begin(k), 'w var 0 counter', ...(k < 2 ? ['w var 0 both'] : [])]);
  const lines = ['webtrace 3', ...BEGIN, ...sets, ...actions, 'end'];
  fs.writeFileSync(file, `${lines.join('\n')}\n`);
  const places = Object.fromEntries(lines.flatMap((line, k) => (line.startsWith('w ') ? [[k + 1, line]] : [])));
  fs.writeFileSync(file.replace(/trace$/, 'names.json'), JSON.stringify({ files: [], places, callers: places, values: {} }));
  const { report, leftOut } = await reportWithin(file);
  assert.deepStrictEqual(leftOut, [{ location: 'var 0 counter', accesses: 400, pairs: 79800 }]);
  assert.deepStrictEqual(report.races.map(({ location }) => location), ['var 0 both']);
  const left = fs.readFileSync(file, 'utf8').split('\n');
  const names = JSON.parse(fs.readFileSync(file.replace(/trace$/, 'names.json'), 'utf8'));
  assert.deepStrictEqual(Object.entries(names.places).map(([line, text]) => left[Number(line) - 1] === text), [true, true]);
  assert.deepStrictEqual(names.callers, names.places);
});

test('one without names stays as it is', async () => {
  const file = path.join(temporaryFolder('limits-test'), 'lone.trace');
  const { sets, begin } = lonely(400);
  const text = `${['webtrace 3', ...BEGIN, ...sets, ...sets.flatMap((none, k) => [begin(k), 'w var 0 counter']), 'end'].join('\n')}\n`;
  fs.writeFileSync(file, text);
  const { report, leftOut } = await reportWithin(file);
  assert.strictEqual(report.refused?.cause, 'too-many-classes');
  assert.deepStrictEqual(leftOut, []);
  assert.strictEqual(fs.readFileSync(file, 'utf8'), text);
});
