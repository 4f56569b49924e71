#!/usr/bin/env node
'use strict';
// draw.js FOLDER COUNT SEED: draws problems of the lists in FOLDER/applications.jsonl into judgements.json, where each is judged by hand, and writes these lists
// into lists.json (../corpus/judged-lists.js). What was judged before stays. Ends with 1 if something of a judgement is missing.

const fs = require('node:fs');
const path = require('node:path');
const { writeWhole } = require('../../common/whole-file.js');
const { draw, faultsOf } = require('./judged.js');
const { linesOf } = require('./lines.js');

const JUDGEMENTS = path.join(__dirname, 'judgements.json');
const LISTS = path.join(__dirname, 'lists.json');
/** Characters of a problem's words: the location. */
const MOST_WORDS = 70;
const USAGE_STATUS = 2;

/**
 * The last list of each application of which a problem was drawn, a line for each problem.
 * @param {import('./types').DoneLine[]} done
 * @param {Set<string>} drawn
 */
function listsText(done, drawn) {
  const lists = new Map(done.map(({ application, problems }) => [application, problems]));
  const text = (/** @type {import('./types').Problem[]} */ problems) => problems
    .map(({ name, look, words }) => `  ${JSON.stringify({ name, look, words: words.slice(0, MOST_WORDS) })}`).join(',\n');
  const all = [...drawn].sort().map((name) => ` ${JSON.stringify(name)}: [\n${text(lists.get(name) || [])}\n ]`);
  return `{\n${all.join(',\n')}\n}\n`;
}

/** @param {string[]} words */
function main([folder, count, seed]) {
  if (![count, seed].every((one) => /^\d{1,9}$/.test(one || ''))) {
    console.error('usage: draw.js FOLDER COUNT SEED');
    return USAGE_STATUS;
  }
  const done = /** @type {import('./types').DoneLine[]} */ (linesOf(path.join(folder, 'applications.jsonl')).filter(({ failure }) => failure === undefined));
  const judgements = draw(done, { ...JSON.parse(fs.readFileSync(JUDGEMENTS, 'utf8')), count: Number(count), seed: Number(seed) });
  writeWhole(JUDGEMENTS, `${JSON.stringify(judgements, null, 1)}\n`);
  writeWhole(LISTS, listsText(done, new Set(judgements.problems.map(({ application }) => application))));
  const faults = faultsOf(judgements);
  faults.forEach((fault) => console.error(`draw.js: ${fault}`));
  return faults.length ? 1 : 0;
}

process.exitCode = main(process.argv.slice(2));
