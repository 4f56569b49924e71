'use strict';
// Which races are replayed, and what the list says of those that are not: why, and a command that replays them.

const assert = require('node:assert');
const { test } = require('node:test');
const { called } = require('../common/called.js');
const { ReplayCommand } = require('../replay-command.js');

/** @typedef {{races?: number[], isReplayed?: boolean, most?: number|null, cookies?: [string, string][], mayChange?: boolean}} Given */

/**
 * A command for a list of so many lines, each of another race; the runs of the lines are given.
 * @param {number[]} runs by line
 * @param {Given} given
 */
function commandOf(runs, { races = [], isReplayed = true, most = null, ...more } = {}) {
  const lines = runs.map((run, k) => ({ run, first: k, races: [k] }));
  const listing = { told: () => lines.map((line) => ({ line, others: [] })), knownLines: () => [], entries: { notReplayedWords: (/** @type {object} */ _) => '' } };
  const judged = { report: { races: runs.map(() => ({})) }, listing };
  /** @type {[any, any, string, any]} stand-ins that have only what is read */
  const made = [{}, { name: 'er_page', races, isReplayed, most, ...more }, 'shop.races/page.trace', judged];
  const command = new ReplayCommand(...made);
  command.noteLeftOut(`not among the first ${command.most()}`);
  return { numbers: command.numbers(), words: lines.map((line) => listing.entries.notReplayedWords(line)) };
}

/** @param {number} count */
const linesOf = (count) => Array.from({ length: count }, () => 0);
const REPLAY = `${called('er_replay')} shop.races/page.trace --race`;

test('the first lines of the list are replayed, in its order', () => {
  assert.deepStrictEqual(commandOf(linesOf(21)).numbers, Array.from({ length: 20 }, (_, k) => k + 1));
  assert.deepStrictEqual(commandOf(linesOf(6), { isReplayed: false }).numbers, [1, 2, 3, 4, 5]);
  assert.deepStrictEqual(commandOf(linesOf(4), { most: 3 }).numbers, [1, 2, 3]);
  assert.deepStrictEqual(commandOf(linesOf(40), { races: [3, 30] }).numbers, [3, 30]);
});

test('a race of a later run is not replayed by its number, which is another race in the first run', () => {
  const { numbers, words } = commandOf([0, 1, 0, 2]);
  assert.deepStrictEqual(numbers, [1, 3]);
  assert.strictEqual(words[1], `no (run 1 does not have it; ${called('er_replay')} shop.races/runs/2.trace --race 2 does it)`);
  assert.strictEqual(words[3], `no (run 1 does not have it; ${called('er_replay')} shop.races/runs/3.trace --race 4 does it)`);
});

test('what is not replayed says why, with the command that replays it', () => {
  assert.strictEqual(commandOf(linesOf(21)).words[20], `no (not among the first 20; ${REPLAY} 21 does it)`);
  assert.strictEqual(commandOf(linesOf(21), { cookies: [['a', 'b']], mayChange: true }).words[20], `no (not among the first 20; ${REPLAY} 21 with --yes, --cookie as here does it)`);
  assert.strictEqual(commandOf(linesOf(40), { races: [3, 30] }).words[5], '', 'others were chosen');
});
