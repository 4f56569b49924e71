#!/usr/bin/env node
'use strict';
// evaluate.js [--draw N --seed S] [--into DOCUMENT[,DOCUMENT]] [--worst N] FOLDER: what the lines of an evaluation come to (corpus.js): prints the tables of
// docs/evaluation.md and docs/evaluation-tables.md, or puts them between their marks in these. With --draw as many problems are drawn by the seed, and
// written into judgements.json, where each is judged by hand; what was judged before stays. With --worst the problems that do most harm in the other order
// are printed alone.

const fs = require('node:fs');
const path = require('node:path');
const { writeWhole } = require('../../common/whole-file.js');
const { withoutCommands } = require('../../common/shown.js');
const { draw, withJudgements, faultsOf, judgementTexts } = require('./draw.js');
const { worstOf } = require('./figures.js');
const { readLines } = require('./lines.js');
const { tablesOf, withTexts } = require('./tables.js');

const JUDGEMENTS = path.join(__dirname, 'judgements.json');
const LOST = path.join(__dirname, '..', '..', '..', 'docs', 'lost.md');
const USAGE_STATUS = 2;
const OPTIONS = /** @type {const} */ (['draw', 'seed', 'into', 'worst']);

/**
 * @typedef {import('./types').Judgements} Judgements
 * @typedef {import('./types').Line} Line
 * @typedef {{[name in typeof OPTIONS[number]]?: string} & {folder: string}} Options
 */

/** @type {Judgements} */
const NONE = { seed: null, count: 0, problems: [] };

/**
 * @param {string[]} words
 * @returns {Options|null}
 */
function optionsOf(words) {
  /** @type {Partial<Options>} */
  const options = {};
  const left = [...words];
  while (left[0]?.startsWith('--')) {
    const word = left.shift();
    const name = OPTIONS.find((one) => word === `--${one}`);
    if (!name || !left.length) return null;
    options[name] = left.shift();
  }
  const isNumber = (/** @type {string|undefined} */ text) => text === undefined || /^\d{1,9}$/.test(text);
  const isWhole = left.length === 1 && [options.draw, options.seed, options.worst].every(isNumber) && (options.draw === undefined) === (options.seed === undefined);
  return isWhole ? { ...options, folder: left[0] } : null;
}

/** @returns {Judgements} */
const readJudgements = () => (fs.existsSync(JUDGEMENTS) ? JSON.parse(fs.readFileSync(JUDGEMENTS, 'utf8')) : NONE);

/**
 * @param {Line[]} lines
 * @param {Pick<Options, 'draw'|'seed'>} options
 */
function drawInto(lines, { draw: count, seed }) {
  const facts = { count: Number(count), seed: Number(seed) };
  writeWhole(JUDGEMENTS, `${JSON.stringify(withJudgements(draw(lines, facts.count, facts.seed), facts, readJudgements()), null, 1)}\n`);
}

/**
 * Puts the texts into the documents that have their marks.
 * @param {Set<string>} documents
 * @param {{[name: string]: string}} texts
 */
function putInto(documents, texts) {
  const files = [...documents];
  withTexts(files.map((file) => fs.readFileSync(file, 'utf8')), texts).forEach((text, k) => writeWhole(files[k], text));
}

/** @param {string[]} args */
function main(args) {
  const options = optionsOf(args);
  if (!options) {
    console.error('usage: evaluate.js [--draw N --seed S] [--into DOCUMENT[,DOCUMENT]] [--worst N] FOLDER');
    return USAGE_STATUS;
  }
  const lines = readLines(path.join(options.folder, 'pages.jsonl'));
  if (options.worst !== undefined) {
    worstOf(lines, Number(options.worst)).forEach(({ page, name, effect, words }) => console.log(withoutCommands(`${page}, ${name}: ${effect}: ${words}`)));
    return 0;
  }
  if (options.draw !== undefined) drawInto(lines, options);
  const judged = readJudgements();
  const faults = faultsOf(judged, fs.readFileSync(LOST, 'utf8'));
  faults.forEach((fault) => console.error(`evaluate.js: ${fault}`));
  const texts = { ...tablesOf(lines), ...judgementTexts(judged) };
  if (options.into) putInto(new Set(options.into.split(',').map((file) => path.resolve(file))), texts);
  else console.log(Object.values(texts).join('\n\n'));
  return faults.length ? 1 : 0;
}

try {
  process.exitCode = main(process.argv.slice(2));
} catch (fault) {
  console.error(`evaluate.js: ${fault instanceof Error ? fault.message : fault}`);
  process.exitCode = USAGE_STATUS;
}
