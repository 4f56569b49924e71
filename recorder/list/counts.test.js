'use strict';
// Each race of the report is counted in one line of the list.

const assert = require('node:assert');
const { test } = require('node:test');
const { Known } = require('./known.js');
const { Listing } = require('./listing.js');
const { linesOf } = require('./outputs.js');
const { Problems } = require('./problems.js');
const { judgeText, tracesWithRaces } = require('../test/list-support.js');

/**
 * How many races the lines of a list stand for, as it prints them.
 * @param {Listing} listing
 */
function countedRaces(listing) {
  const names = linesOf(listing).flatMap((line) => /^ {4}\w+ \(for races\.known\)(.*)$/.exec(line)?.[1] ?? []);
  return names.reduce((sum, words) => sum + Number(/: (\d+) races$/.exec(words)?.[1] ?? 1 + Number(/and (\d+) more race/.exec(words)?.[1] ?? 0)), 0);
}

test('the lines of the list stand for each race of the report once', async () => {
  let told = 0;
  for (const { text, names } of tracesWithRaces()) {
    const problems = new Problems(text, names, await judgeText(text));
    const count = problems.report.races.length;
    const listing = new Listing([problems], null);
    assert.strictEqual(countedRaces(listing), count);
    const some = listing.problems.filter((_, k) => k % 3 === 0).map(({ name }) => name);
    for (const known of [null, new Known(some.join('\n'), 'races.known')]) {
      const list = new Listing([problems], known);
      assert.strictEqual(list.lines.reduce((sum, line) => sum + list.size(line), 0), count);
    }
    told += Number(problems.list.some(({ isTold }) => isTold));
  }
  assert.ok(told > 0, 'a line whose race another line covers');
});
