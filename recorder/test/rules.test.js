'use strict';
// The comparison of what the rules leave with the whole recording: it finds what no rule explains. No browser.

const assert = require('node:assert');
const { test } = require('node:test');
const { Accesses } = require('../trace/accesses.js');
const { judgeLines } = require('./list-support.js');
const { Comparison } = require('./rules.js');

/** Three timeouts that nothing orders, with accesses to one variable, as the page sends them. */
const BEGIN = ['parse 0 1 inline', 'exec 1', 'every 1 0', 'every 2 0', 'every 3 0'];
/** @param {string[]} lines */
const entriesOf = (lines) => lines.map((line) => ({ text: line.split('\t')[0], place: line.split('\t')[1] }));

/**
 * @param {string[][]} actions what each of the timeouts sends of all accesses
 * @param {string[]} told the lines that its rules leave
 */
async function compare(actions, told, location = 'var 3000000 n own') {
  const lines = [...BEGIN, `at 1 ${location}`, ...actions.flatMap((own, k) => [`tick ${k + 1}`, ...own]), ...told];
  const whole = new Accesses(entriesOf(lines)).whole();
  const left = new Accesses(entriesOf(lines)).entries();
  const names = { objects: { 3000000: location.endsWith('own') ? { made: 'object' } : {} } };
  const { report } = await judgeLines(whole.map(({ text }) => text));
  const { report: short } = await judgeLines(left.map(({ text }) => text));
  const { counts, unexplained, foreign } = new Comparison({ records: whole, names, report }, { report: short });
  return { counts, unexplained: unexplained.length, foreign: foreign.length };
}

test('all that is there', async () => {
  assert.deepStrictEqual(await compare([['all w 1'], ['all r 1']], ['in 3 w 1', 'in 4 r 1']), { counts: {}, unexplained: 0, foreign: 0 });
});

test('a race that no rule leaves out is found', async () => {
  assert.deepStrictEqual(await compare([['all w 1'], ['all r 1']], []), { counts: {}, unexplained: 1, foreign: 0 });
  assert.deepStrictEqual(await compare([['all w 1'], ['all w 1']], ['in 3 w 1', 'in 4 r 1']), { counts: {}, unexplained: 1, foreign: 0 });
  assert.deepStrictEqual(await compare([['all w 1'], ['all w 1', 'same 1']], ['in 3 w 1']), { counts: {}, unexplained: 1, foreign: 0 });
});

test('a race of what is left alone is found', async () => {
  assert.deepStrictEqual(await compare([['all w 1'], []], ['in 3 w 1', 'in 4 r 1']), { counts: {}, unexplained: 0, foreign: 1 });
});

test('a writer, a write of the same value, and a reader: the pair of the last two is missing, those with the writer stand', async () => {
  const actions = [['all w 1'], ['all w 1', 'same 1'], ['all r 1']];
  assert.deepStrictEqual(await compare(actions, ['in 3 w 1', 'in 4 k 1', 'in 5 r 1']), { counts: { told: 1, kept: 1 }, unexplained: 0, foreign: 0 });
});

test('two writes of the same value, and a read of its own action', async () => {
  assert.deepStrictEqual(await compare([['all w 1', 'same 1'], ['all w 1', 'same 1']], []), { counts: { bothKept: 1 }, unexplained: 0, foreign: 0 });
  assert.deepStrictEqual(await compare([['all w 1', 'all r 1 own'], ['all w 1']], ['in 3 w 1', 'in 4 w 1']), { counts: { own: 1 }, unexplained: 0, foreign: 0 });
});

test('a variable of a closure that nobody reads, and a first value', async () => {
  assert.deepStrictEqual(await compare([['all w 1'], ['all w 1', 'all r 1 own']], [], 'var 3000000 n'), { counts: { closure: 2 }, unexplained: 0, foreign: 0 });
  assert.deepStrictEqual(await compare([['all w 1 first'], ['all r 1']], []), { counts: { firstLone: 1 }, unexplained: 0, foreign: 0 });
});
