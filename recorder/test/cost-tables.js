#!/usr/bin/env node
'use strict';
// cost-tables.js [--into FILE] [--heading WORDS] [--note SENTENCE] NAME=FROM..: what the recorder costs, of recorders of several commits in one table. FROM is a
// folder, in which `corpus.js --times` has loads of the pages of the evaluation, or a file with what `packaged.js`, `packaged-heap.js` or `loops.js` printed.
// Writes a row for each FROM; of files, then one for each page or loop.

const fs = require('node:fs');
const path = require('node:path');
const { tableOf, takeOptions, writeSection } = require('./measured-pages.js');

/**
 * @typedef {import('./corpus/types').Loads} Loads
 * @typedef {{page: string, without: number, with: number, idle: number, unit: string, times?: number}} Cost of a page or a loop; `idle` is NaN if it is not known,
 *   and `times` is there if it was printed
 */

const HEAD = ['Recorder', 'Of', 'Without (median)', 'With (median)', 'Times as much (median)', 'Nine of ten at most', 'Most', 'At most 1.3 times', 'At most 2.0 times', 'Idle processors (median)'];
/** The lines of the tools: name, figure without the recorder, unit, figure with it, times as much (of figures that are not rounded). */
const PRINTED = [/^(.+?): .*?([\d.]+) (s) without, ([\d.]+) s with: ([\d.]+)/, /^(.+?): without ([\d.]+) (MB), .*objects ([\d.]+) MB: ([\d.]+)/];

/** As record-page.js names them. */
const OF_LOADS = '.loads.json';

/** @param {number[]} numbers */
const sorted = (numbers) => [...numbers].sort((a, b) => a - b);

/**
 * @param {number[]} numbers
 * @param {number} share
 */
const quantile = (numbers, share) => sorted(numbers)[Math.min(numbers.length - 1, Math.floor(numbers.length * share))];

/** @param {number[]} numbers */
const median = (numbers) => quantile(numbers, 0.5);

/**
 * The figures in what a tool printed.
 * @param {string} file
 * @returns {Cost[]}
 */
function printedIn(file) {
  const found = fs.readFileSync(file, 'utf8').split('\n').map((line) => PRINTED.map((pattern) => pattern.exec(line)).find(Boolean));
  return found.flatMap((one) => (one ? [{ page: one[1], without: Number(one[2]), with: Number(one[4]), idle: NaN, unit: one[3], times: Number(one[5]) }] : []));
}

/**
 * The loads of each page of a folder, the median of each kind.
 * @param {string} folder
 * @returns {Cost[]}
 */
function loadsIn(folder) {
  const pages = path.join(folder, 'pages');
  return fs.readdirSync(pages).filter((name) => name.endsWith(OF_LOADS)).flatMap((name) => {
    const page = name.slice(0, -OF_LOADS.length);
    /** @type {Loads} */
    const loads = JSON.parse(fs.readFileSync(path.join(pages, name), 'utf8'));
    const known = (/** @type {(number|null)[]} */ all) => all.flatMap((one) => (one === null ? [] : [one]));
    const [without, withIt] = [known(loads.without), known(loads.with)];
    return without.length && withIt.length ? [{ page, without: median(without), with: median(withIt), idle: loads.idle ?? NaN, unit: 's' }] : [];
  });
}

/** @param {Cost} cost */
const timesOf = (cost) => cost.times ?? cost.with / cost.without;

/** @param {Cost[]} costs */
function idleOf(costs) {
  const known = costs.map(({ idle }) => idle).filter((one) => !Number.isNaN(one));
  return known.length ? `${Math.round(median(known) * 100)} %` : '';
}

/**
 * @param {string} name
 * @param {Cost[]} costs
 */
function rowOf(name, costs) {
  const ratios = costs.map(timesOf);
  const upTo = (/** @type {number} */ most) => ratios.filter((one) => one <= most).length;
  const figures = [median(costs.map((one) => one.without)), median(costs.map((one) => one.with)), median(ratios), quantile(ratios, 0.9), Math.max(...ratios)];
  return [name, costs.length, ...figures.map((one) => one.toFixed(2)), upTo(1.3), upTo(2), idleOf(costs)];
}

/**
 * A row for each page: the loads without and with each recorder.
 * @param {{name: string, costs: Cost[]}[]} sets
 * @param {Set<string>} common
 */
function pagesOf(sets, common) {
  const cell = (/** @type {Cost|undefined} */ one) => (one ? `${one.without.toFixed(2)}, ${one.with.toFixed(2)}: ${timesOf(one).toFixed(1)}` : '');
  const rows = [...common].sort().map((page) => [page, ...sets.map(({ costs }) => cell(costs.find((one) => one.page === page)))]);
  return tableOf(['Page or loop', ...sets.map(({ name, costs }) => `${name}: without, with (${costs[0].unit}), times`)], rows);
}

/** @param {string[]} words */
function main(words) {
  const left = [...words];
  const take = (/** @type {string} */ option) => (left.includes(option) ? left.splice(left.indexOf(option), 2)[1] : '');
  const heading = take('--heading') || 'Loads';
  const note = take('--note');
  const { into } = takeOptions(left);
  const isFile = (/** @type {string} */ from) => fs.statSync(from).isFile();
  const given = left.map((word) => word.split('='));
  const sets = given.map(([name, from]) => ({ name, costs: isFile(from) ? printedIn(from) : loadsIn(from) }));
  const common = sets.map(({ costs }) => new Set(costs.map(({ page }) => page))).reduce((a, b) => new Set([...a].filter((page) => b.has(page))));
  const rows = sets.map(({ name, costs }) => rowOf(name, costs.filter(({ page }) => common.has(page))));
  const areFiles = given.some(([, from]) => isFile(from));
  const tables = [tableOf(HEAD, rows), ...areFiles ? [pagesOf(sets, common)] : []].join('\n\n');
  console.log(tables);
  if (into) writeSection(into, heading, `By \`recorder/test/cost-tables.js\`, of what each row has.${note && ` ${note}`}\n\n${tables}`, 'What a recording costs');
}

if (require.main === module) main(process.argv.slice(2));
