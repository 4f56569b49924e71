#!/usr/bin/env node
'use strict';
// packaged-rules.js FOLDER [PACKAGE..]: records pages of Debian packages (packaged.json; those that are installed) with all their accesses, makes of
// each recording the whole trace and the one that the rules leave, and prints which races of the whole are missing in the other, and by which rule.

const fs = require('node:fs');
const path = require('node:path');
const { Chromium } = require('../browser/chromium.js');
const { parseOptions } = require('../recording/options.js');
const { Recorder } = require('../recording/recorder.js');
const { Accesses } = require('../trace/accesses.js');
const { beyond, isAt, keepWithin, sizesOf, sum } = require('../trace/limits.js');
const { Names } = require('../trace/names.js');
const { Spelling, NEWEST_VERSION } = require('../trace/spelling.js');
const { judge } = require('../races/program.js');
const { Comparison } = require('./rules.js');
require('./cleanup.js');
const { readPackaged, isInstalled } = require('./packaged-pages.js');

/**
 * @typedef {import('../list/types').Report & {refused?: unknown}} Report
 * @typedef {import('../trace/accesses.js').Entry} Entry
 * @typedef {ReturnType<Spelling['records']>} Records
 */

/** What of the pairs may stay where the program can't take the whole trace. */
const KEPT = 0.75;

/** @param {Entry[]} entries */
function spelled(entries) {
  return keepWithin(new Spelling(entries, NEWEST_VERSION).records()).records;
}

/**
 * @param {Records} records
 * @param {string} file
 * @returns {Promise<Report>}
 */
async function report(records, file) {
  fs.writeFileSync(file, `${[`webtrace ${NEWEST_VERSION}`, ...records.map(({ text }) => text), 'end'].join('\n')}\n`);
  /** @type {{report?: Report, fault?: string}} */
  const answer = await judge(file);
  if (!answer.report) throw new Error(answer.fault);
  return answer.report;
}

/**
 * The whole trace, without the locations that are too large for the program.
 * @param {Entry[]} entries
 * @param {string} file
 */
async function wholeWithin(entries, file) {
  let records = spelled(entries);
  /** @type {Set<string>} */
  const tooLarge = new Set();
  for (;;) {
    const judged = await report(records, file);
    if (!judged.refused) return { records, report: judged, tooLarge };
    const lines = records.map(({ text }) => text);
    beyond(lines, { mostPairs: Math.floor(sum(sizesOf(lines), 'pairs') * KEPT) }).forEach(({ location }) => tooLarge.add(location));
    records = records.filter(({ text }) => !isAt(text, tooLarge));
  }
}

/** @param {Records} records */
const countOf = (records) => records.filter(({ text }) => /^[rw] /.test(text)).length;

/**
 * @param {Chromium} browser
 * @param {import('./packaged-pages.js').PackagedPage} page
 * @param {string} folder
 */
async function comparePage(browser, { package: name, page, root = '/usr/share', words }, folder) {
  const options = { ...parseOptions([...words, '--keep', '--root', root, page]), browser };
  const recorder = new Recorder(page, options);
  await recorder.record();
  await recorder.readMaps();
  const { entries } = recorder.intake;
  const whole = await wholeWithin(new Accesses(entries).whole(), path.join(folder, `${name}.whole.trace`));
  const names = new Names(recorder.sources, recorder.intake.names);
  names.addRecords(whole.records);
  const without = (/** @type {Entry[]} */ some) => spelled(some).filter(({ text }) => !isAt(text, whole.tooLarge));
  const left = without(new Accesses(entries).entries());
  const isLibrary = (/** @type {string|undefined} */ place) => recorder.sources.isLibrary(place, options.libraries);
  const own = without(new Accesses(entries).entries({ isLibrary }));
  const leftReport = await report(left, path.join(folder, `${name}.left.trace`));
  const ownReport = await report(own, path.join(folder, `${name}.own.trace`));
  const { counts, unexplained, foreign } = new Comparison({ ...whole, names }, { report: leftReport });
  return {
    name,
    accesses: [countOf(whole.records), countOf(left), countOf(own)],
    races: [whole.report, leftReport, ownReport].map(({ races }) => races.length),
    tooLarge: whole.tooLarge.size,
    counts,
    unexplained,
    foreign,
  };
}

/** @param {Awaited<ReturnType<typeof comparePage>>} compared */
function told({ name, accesses, races, tooLarge, counts, unexplained, foreign }) {
  const rules = Object.entries(counts).map(([rule, count]) => `${rule} ${count}`).join(', ');
  return `${name}: accesses ${accesses.join(', ')}; races ${races.join(', ')} (the whole, what rules one to five leave, and without libraries)`
    + `; missing by ${rules || 'no rule'}; not explained ${unexplained.length}, in no whole ${foreign.length}; too large ${tooLarge}`;
}

/** @param {string[]} words */
async function main([folder = '.', ...only]) {
  let status = 0;
  for (const one of readPackaged(only)) {
    if (!isInstalled(one)) {
      console.log(`${one.package}: not installed`);
      continue;
    }
    const browser = await Chromium.launch({ width: 1100, height: 800 });
    try {
      const result = await comparePage(browser, one, folder);
      console.log(told(result));
      for (const race of [...result.unexplained, ...result.foreign]) console.log(`  ${race.modes} ${race.lines.join(' ')} ${race.actions.join(' ')} ${race.location}`);
      if (result.unexplained.length + result.foreign.length) status = 1;
    } finally {
      await browser.close();
    }
  }
  return status;
}

main(process.argv.slice(2)).then((status) => { process.exitCode = status; });
