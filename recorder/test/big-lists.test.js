'use strict';
// The list and the view of many races: their work grows as the races do, whatever the shape of the trace, and the page stays small.

const assert = require('node:assert');
const { test } = require('node:test');
const { countRuns } = require('./counted-work.js'); // before what it counts
const { Listing } = require('../list/listing.js');
const { LoadsListing } = require('../list/loads-listing.js');
const { LoadRuns } = require('../list/loads-run.js');
const { linesOf } = require('../list/outputs.js');
const { plainListing } = require('../list/json.js');
const { Problems } = require('../list/problems.js');
const { renderPage } = require('../view/html.js');
const { Model } = require('../view/model.js');
const { SHAPES } = require('./big-traces.js');
const { judgeLines } = require('./list-support.js');

const [FEW, MORE, MANY] = [2000, 16000, 40000];
/** A race of many takes no more work than one of few. */
const MOST_GROWTH = 1.05;
const MOST_BYTES = 5000000;
const FOLDERS = ['list', 'races', 'view', 'common'];
const FACTS = { page: '', status: 1, files: [], folder: null };

/**
 * Makes the list and the view as er_page does; the page's text.
 * @param {{text: string, report: import('./list-support.js').Report}} judged
 * @param {import('./big-traces.js').Names} names
 */
function listAndView({ text, report }, names) {
  const problems = new Problems(text, names, report);
  const listing = new Listing([problems], null);
  const model = new Model(report, names, problems.words.actions);
  model.pairsToExplain();
  const page = renderPage({ ...model.build([], listing), leftOut: [], ofLibraries: null, isUnproved: false, lacksLinks: false, viewer: '', trace: '', command: '', report: '' });
  linesOf(listing);
  plainListing(listing, FACTS);
  listLoads(problems);
  return page;
}

/**
 * Lists a load as er_suite does, once without and once with JSON: another process stores it, and sends what it has stored.
 * @param {Problems} problems
 */
function listLoads(problems) {
  for (const isWhole of [false, true]) {
    const run = new LoadRuns(isWhole).factsOf(problems);
    const listing = new LoadsListing([new LoadRuns(isWhole).take(structuredClone(run))], null, {}, ['1.html']);
    linesOf(listing);
    if (isWhole) plainListing(listing, FACTS);
  }
}

/**
 * @param {string} shape
 * @param {number} races
 */
async function workOf(shape, races) {
  const { lines, names } = SHAPES[shape].make(races);
  const judged = await judgeLines(lines);
  return { races: judged.report.races.length, runs: countRuns(FOLDERS, () => listAndView(judged, names)) };
}

for (const [shape, { says }] of Object.entries(SHAPES)) {
  test(`${shape}: ${says}`, { timeout: 300000 }, async () => {
    const [few, more] = [await workOf(shape, FEW), await workOf(shape, MORE)];
    const growth = more.runs / few.runs / (more.races / few.races);
    assert.ok(growth < MOST_GROWTH, `${few.races} races: ${few.runs} runs; ${more.races} races: ${more.runs} runs`);
  });
}

test('the page of 40,000 races has at most 5 MB', { timeout: 300000 }, async () => {
  const { lines, names } = SHAPES.places.make(MANY);
  const judged = await judgeLines(lines);
  assert.ok(judged.report.races.length >= MANY);
  const bytes = Buffer.byteLength(listAndView(judged, names));
  assert.ok(bytes <= MOST_BYTES, `${bytes} bytes`);
});
