'use strict';
// Stable names stay from release to release: recordings with the names and the file of known races that an earlier release wrote (recorded/).

const assert = require('node:assert');
const fs = require('node:fs');
const path = require('node:path');
const { test } = require('node:test');
const { Known } = require('./known.js');
const { Listing } = require('./listing.js');
const { Problems } = require('./problems.js');
const { judgeText } = require('../test/list-support.js');

/** @param {string} name */
const read = (name) => fs.readFileSync(path.join(__dirname, 'recorded', name), 'utf8');
/** @type {{[recording: string]: string[]}} the names of the races, in the order of the report */
const NAMES = JSON.parse(read('race-names.json'));

for (const [recording, names] of Object.entries(NAMES)) {
  test(`the races of ${recording} have the names that an earlier release gave, and its file of known races has them`, async () => {
    const text = read(`${recording}.trace`);
    const problems = new Problems(text, JSON.parse(read(`${recording}.names.json`)), await judgeText(text));
    assert.deepStrictEqual(problems.ofRaces.map(({ name }) => name), names);
    const file = read(`${recording}.known`);
    const listing = new Listing([problems], new Known(file, 'races.known'));
    assert.deepStrictEqual(listing.problems.filter(({ isKnown }) => !isKnown), []);
    assert.deepStrictEqual(listing.notSeen(), []);
    const words = Known.readFile(path.join(__dirname, 'recorded', 'no-such-file'), true).textWith(listing.problems);
    assert.strictEqual(words, file);
  });
}
