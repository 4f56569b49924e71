#!/usr/bin/env node
'use strict';
// timeline.js [--into FILE] PAGE..: records pages beside Chromium's own timeline, and lists the calls into script that are in no action of the recorder,
// the actions of another kind than what the browser did, and those that are not in the trace. A PAGE is a package of packaged.json (`packaged`: all), a
// file of pages/, a file or an address. With --corpus FOLDER the pages are those of the evaluation (measured-corpus.js has the options). Promise reactions
// are no events of this timeline.

const { Chromium } = require('../browser/chromium.js');
const { parseOptions } = require('../recording/options.js');
const { SCRIPT_NAME } = require('../recording/page-script.js');
const { Recorder } = require('../recording/recorder.js');
const { within } = require('../common/time.js');
const { Accesses } = require('../trace/accesses.js');
const { Spelling, NEWEST_VERSION } = require('../trace/spelling.js');
const { takeCorpus, pageOfCorpus, measureCorpus, commitsOf } = require('./measured-corpus.js');
const { takeOptions, pagesOf, writeSection } = require('./measured-pages.js');
const { TimelineMatch } = require('./timeline-match.js');
const { lineOf, inWords, tableOfKinds, sumTables } = require('./timeline-tables.js');
require('./cleanup.js');

/** @typedef {import('./measured-pages.js').MeasuredPage} MeasuredPage */
/** @typedef {import('./timeline-match.js').TimelineEvent} TimelineEvent */
/** @typedef {import('./timeline-tables.js').TimelineLine} TimelineLine */

const CATEGORIES = ['devtools.timeline', 'v8'];
const LONGEST_END = 30000;
const MOST_PLACES = 12;
const SIZE = { width: 1100, height: 800 };

/**
 * Records a page in a browser that has no other work.
 * @param {Chromium} browser
 * @param {MeasuredPage} page
 */
async function recordWithTimeline(browser, { page, words }) {
  /** @type {TimelineEvent[]} */
  const events = [];
  browser.on('Tracing.dataCollected', ({ value }) => { events.push(...value); });
  const isComplete = new Promise((resolve) => { browser.on('Tracing.tracingComplete', resolve); });
  const recorder = new Recorder(page, { ...parseOptions(words), browser, stamps: true });
  await browser.send('Tracing.start', { transferMode: 'ReportEvents', traceConfig: { includedCategories: CATEGORIES } });
  await recorder.record();
  await browser.send('Tracing.end');
  await within(isComplete, LONGEST_END);
  return { events, recorder };
}

/**
 * What the timeline and the recording have of a page.
 * @param {MeasuredPage} page
 */
async function compareTimeline(page) {
  const browser = await Chromium.launch(SIZE);
  try {
    const { events, recorder } = await recordWithTimeline(browser, page);
    const match = new TimelineMatch(events, SCRIPT_NAME);
    match.compareTrace(new Spelling(new Accesses(recorder.intake.entries).entries(), NEWEST_VERSION).records().map(({ text }) => text));
    return { name: page.name, kinds: match.kinds, missing: match.missing(), losses: recorder.losses() };
  } finally {
    await browser.close();
  }
}

/**
 * @param {MeasuredPage[]} pages
 */
async function measurePages(pages) {
  /** @type {TimelineLine[]} */
  const all = [];
  for (const page of pages) {
    try {
      all.push(lineOf(await compareTimeline(page)));
      printPage(all[all.length - 1]);
    } catch (fault) {
      console.log(`${page.name}: left out: ${fault instanceof Error ? fault.message : fault}`);
    }
  }
  return all;
}

/** @param {TimelineLine} line */
function printPage(line) {
  console.log(`${line.name}: ${inWords(line)}`);
  for (const { kind, place, count } of line.missing.slice(0, MOST_PLACES)) console.log(`  missing: ${kind}: ${place} (${count})`);
  for (const lost of line.losses) console.log(`  not recorded: ${lost}`);
}

/** @param {string[]} words */
async function main(words) {
  const left = [...words];
  const over = takeCorpus(left);
  const { into } = takeOptions(left);
  if (over?.only) {
    process.stdout.write(JSON.stringify(lineOf(await compareTimeline(pageOfCorpus(over)))));
    return 0;
  }
  const lines = over ? await measureCorpus(over, left, { tool: __filename, file: 'timeline.jsonl', words: [], isEnough: () => true, goesOn: false, inWords }) : await measurePages(pagesOf(left));
  const table = over ? sumTables(lines) : tableOfKinds(lines);
  console.log(`\n${table}`);
  const heading = `The browser's timeline${over ? ' on the pages of the evaluation' : ''}`;
  const pages = over ? ` --corpus FOLDER\`${commitsOf(lines)}` : `\`, of ${lines.length} pages: ${lines.map(({ name }) => name).join(', ')}`;
  if (into) writeSection(into, heading, `By \`recorder/test/timeline.js${pages}.\n\n${table}`);
  return lines.some((line) => line.failure === undefined && line.missing.length) ? 1 : 0;
}

module.exports = { compareTimeline };

if (require.main === module) main(process.argv.slice(2)).then((status) => { process.exitCode = status; });
