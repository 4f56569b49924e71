#!/usr/bin/env node
'use strict';
// replay-counts.js [--most N] [--in FOLDER] [--as NAME] [--note TEXT] [--into FILE] OUT [PAGE..]: what the replays of pages cost, in counts that the load of
// the machine changes little: runs, requests, processor time, waits. PAGE is a package of packaged.json, or a file; FOLDER has the packages' files if these
// are not installed. Each page's counts and verdicts are in the folder OUT; without a page the table is of what is there. --into writes it as the section
// NAME, with TEXT, such as the load of the machine.

const fs = require('node:fs');
const path = require('node:path');
const { run } = require('./cleanup.js');
const { pageOf, tableOf, writeSection } = require('./measured-pages.js');

/** @typedef {import('./measured-pages.js').MeasuredPage} MeasuredPage */
/** @typedef {{location: string, verdict: string, effect?: string}} Found */
/**
 * @typedef {{runs: number, loads: number, queries: number, network: number, folder: number, memory: number, browser: number, node: number, analyzer: number,
 *   wall: number, seconds: {[name: string]: number}}} Counts by replay-counter.js
 */
/** @typedef {{page: string, counts: Counts, found: Found[]}} Measured */

const TOP = path.join(__dirname, '..', '..');
const COUNTER = path.join(__dirname, 'replay-counter.js');
const LONGEST_RUN = 900000;
const PROCESSORS = 4;

/**
 * What was measured of a page, or null if nothing was replayed.
 * @param {string} own
 * @returns {Measured|null}
 */
function readMeasured(own) {
  const [races] = fs.readdirSync(own).filter((one) => one.endsWith('.races'));
  const [file, replays] = [path.join(own, 'counts.json'), path.join(own, races || '', 'page.replay.json')];
  if (!fs.existsSync(replays) || !fs.existsSync(file)) return null;
  return { page: path.basename(own), counts: JSON.parse(fs.readFileSync(file, 'utf8')), found: JSON.parse(fs.readFileSync(replays, 'utf8')).races };
}

/**
 * @param {MeasuredPage} page
 * @param {{out: string, most: string, inside: string}} options
 */
async function measure({ name, page, words }, { out, most, inside }) {
  const own = path.join(out, name.replace(/[^\w.-]+/g, '-'));
  fs.rmSync(own, { recursive: true, force: true });
  fs.mkdirSync(own, { recursive: true });
  const env = { ...process.env, ER_COUNTS: path.join(own, 'counts.json'), NODE_OPTIONS: `--require ${COUNTER}` };
  const isPackaged = page.startsWith('/usr/');
  const there = (/** @type {string} */ one) => (isPackaged && one.startsWith('/') ? path.join(inside, one) : one);
  const ended = await run(path.join(TOP, 'er_page'), [there(page), ...words.map(there), '--replay', '--most', most], { cwd: own, env, longest: LONGEST_RUN });
  fs.writeFileSync(path.join(own, 'said'), ended.stdout + ended.stderr);
  const measured = readMeasured(own);
  console.log(measured ? rowOf(measured).join(' | ') : `${name}: nothing replayed`);
}

/** @param {number[]} numbers */
const median = (numbers) => [...numbers].sort((a, b) => a - b)[Math.floor(numbers.length / 2)];
const one = (/** @type {number} */ value) => value.toFixed(1);

const HEAD = ['Page', 'Races', 'Differ', 'Not reversed', 'Runs', 'Requests to servers', 'of the folder', 'from memory', 'Browser, s', 'a run', 'Node, s', 'Analyzer, s', 'Queries',
  'All, s on four processors', 'Time, s'];

/** @param {Counts} counts the processor seconds of all that a replay starts */
const processors = ({ browser, node, analyzer }) => browser + node + analyzer;

/** @param {Measured} measured */
function rowOf({ page, counts, found }) {
  const differ = found.filter(({ verdict, effect }) => verdict === 'turned' && effect).length;
  const { runs, network, folder, memory, browser, node, analyzer, queries, wall } = counts;
  return [page, found.length, differ, found.filter(({ verdict }) => verdict !== 'turned').length, runs, network, folder, memory, one(browser), one(browser / runs), one(node), one(analyzer),
    queries, one(processors(counts) / PROCESSORS), one(wall)];
}

/** @param {Measured[]} all */
function waitsOf(all) {
  const names = [...new Set(all.flatMap(({ counts }) => Object.keys(counts.seconds)))].sort();
  const rows = all.map(({ page, counts }) => [page, ...names.map((name) => ((counts.seconds[name] || 0) / counts.runs).toFixed(2))]);
  return tableOf(['Seconds of a run', ...names], rows);
}

/** @param {Measured[]} all */
function textOf(all) {
  const runs = all.reduce((sum, { counts }) => sum + counts.runs, 0);
  const onFour = all.map(({ counts }) => processors(counts) / PROCESSORS);
  const walls = all.map(({ counts }) => counts.wall);
  return [
    tableOf(HEAD, all.map(rowOf)),
    `Runs: ${runs}. Processor seconds divided by four, median: ${one(median(onFour))}; most: ${one(Math.max(...onFour))}. `
      + `Time, median: ${one(median(walls))}; most: ${one(Math.max(...walls))}.`,
    waitsOf(all),
  ].join('\n\n');
}

/** @param {string[]} words */
async function main(words) {
  const left = [...words];
  const take = (/** @type {string} */ name) => (left.includes(name) ? left.splice(left.indexOf(name), 2)[1] : null);
  const [most, inside, into, heading, note] = [take('--most') || '5', take('--in') || '/', take('--into'), take('--as') || 'Replays', take('--note') || ''];
  const [given = '.', ...pages] = left;
  const out = path.resolve(given);
  for (const name of pages) await measure(pageOf(name), { out, most, inside });
  const all = fs.readdirSync(out).map((name) => readMeasured(path.join(out, name))).filter(Boolean);
  if (!all.length) return;
  const text = textOf(/** @type {Measured[]} */ (all));
  console.log(text);
  if (into) writeSection(into, heading, `${note}\n\n${text}`, 'What replays cost');
}

main(process.argv.slice(2));
