'use strict';
// A load as a list stores it: the list, JSON and SARIF are those of all facts of the load.

const assert = require('node:assert');
const fs = require('node:fs');
const path = require('node:path');
const { test } = require('node:test');
const { plainListing } = require('./json.js');
const { Known } = require('./known.js');
const { Listing } = require('./listing.js');
const { LoadsListing } = require('./loads-listing.js');
const { LoadRuns } = require('./loads-run.js');
const { linesOf } = require('./outputs.js');
const { Problems } = require('./problems.js');
const { sarifOf } = require('./sarif.js');
const { judgeText } = require('../test/list-support.js');

const EXAMPLES = path.join(__dirname, '..', '..', 'examples');
const NAMES = { files: [{ address: 'http://a/x.js', text: 'a\n' }], elements: {}, documents: {}, handlers: {}, timeouts: {}, intervals: {}, requests: {}, dispatches: {}, objects: {}, functions: {}, values: {} };
const FACTS = { page: 'traces', status: 1, files: [], folder: null };

/** The listing of all facts of the loads, with the words of a list of loads. */
class WholeListing extends Listing {
  /** @param {import('./listing.js').Listed} problem */
  seenInWords(problem) {
    const views = this.runs.map((_, k) => `${k + 1}.html`);
    return LoadsListing.prototype.seenInWords.call(Object.assign(Object.create(this), { views }), problem);
  }
}

/** @param {string} name */
async function problemsOf(name) {
  const text = fs.readFileSync(path.join(EXAMPLES, `${name}.trace`), 'utf8');
  const places = Object.fromEntries(text.split('\n').map((_, k) => [k + 1, /** @type {[number, number, number]} */ ([0, 1 + (k % 7), 1])]));
  return new Problems(text, { ...NAMES, places }, await judgeText(text));
}

test('a load as it is stored gives the same list, JSON and SARIF', async () => {
  const loads = await Promise.all(['page-jquery-ui-tabs-with-requests', 'covered-by-a-flag', 'page-jquery-ui-tabs-with-requests', 'page-scriptaculous-tests-in-frames'].map(problemsOf));
  const some = new Listing(loads, null).problems.filter((_, k) => k % 3 === 0).map(({ name }) => name);
  for (const known of [null, new Known(some.join('\n'), 'races.known')]) {
    const whole = new WholeListing(loads, known, {});
    for (const isWhole of [false, true]) {
      const runs = new LoadRuns(isWhole);
      const [odd, even, all] = [new LoadRuns(isWhole), new LoadRuns(isWhole), new LoadRuns(isWhole)];
      const sent = loads.map((one, k) => structuredClone((k % 2 ? odd : even).factsOf(one))); // by two processes, alternately
      for (const stored of [loads.map((one) => runs.add(one)), sent.map((facts) => all.take(facts))]) {
        const listing = new LoadsListing(stored, known, {}, loads.map((_, k) => `${k + 1}.html`));
        assert.deepStrictEqual(linesOf(listing), linesOf(whole));
        assert.deepStrictEqual(sarifOf(listing, FACTS), sarifOf(whole, FACTS));
        if (isWhole) assert.deepStrictEqual(plainListing(listing, FACTS), plainListing(whole, FACTS));
        if (known) assert.strictEqual(known.textWith(listing.problems), known.textWith(whole.problems));
      }
    }
  }
});
