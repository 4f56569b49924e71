#!/usr/bin/env node
'use strict';
// measure.js FOLDER: what the two recordings and the replays of a page have, as one line of JSON. It is a process of its own: what it reads may be large.

const fs = require('node:fs');
const path = require('node:path');
const { Listing } = require('../../list/listing.js');
const { Problems } = require('../../list/problems.js');
const { FIRST_FIELD, FIRST_MODULE, FIRST_OBJECT } = require('../../common/numbers.js');
const { isOfTree } = require('../../races/spelled-locations.js');
const { judgeWithin } = require('../../races/within-limits.js');

const MOST_WORDS = 1000;

/**
 * @typedef {import('../../list/types').Names} Names
 * @typedef {import('../../list/types').Report} Report
 * @typedef {import('./types').Counts} Counts
 * @typedef {import('./types').ProblemOfPage} ProblemOfPage
 * @typedef {import('./types').ReplayedRace} ReplayedRace
 * @typedef {import('./types').RunMeasured} RunMeasured
 * @typedef {{failure?: undefined, report: Report, names: Names, leftOut: number, problems: Problems}|{failure: string}} ReadRun
 * @typedef {{race: number, verdict: string, effect?: string, why?: string, isListed?: boolean, differences: unknown[], unsteady?: {isSeen?: boolean}[],
 *   byDelay?: {isSeen?: boolean}[], words: string}} Replayed as OUT.replay.json has it
 * @typedef {{name: string, races: {race: number}[]}} ListedProblem
 */

/**
 * What a race is at. The last three are found with objects and closures alone.
 * @param {string} location
 * @param {Pick<Names, 'objects'>} names
 */
function kindOf(location, names) {
  const [kind, digits] = location.split(' ');
  const number = Number(digits);
  if (kind !== 'var') return kind === 'elem' ? 'element' : 'handler';
  if (number < FIRST_FIELD) return 'global';
  if (number < FIRST_MODULE) return isOfTree(location) ? 'tree' : 'field';
  if (number < FIRST_OBJECT) return 'module';
  return names.objects?.[number]?.scope !== undefined ? 'closure' : 'object';
}

/**
 * @template T
 * @param {T[]} list
 * @param {(one: T) => string} what
 */
function countBy(list, what) {
  /** @type {Counts} */
  const counts = {};
  for (const one of list) counts[what(one)] = (counts[what(one)] || 0) + 1;
  return counts;
}

/**
 * A recording with its problems, or why it has none.
 * @param {string} file
 * @returns {Promise<ReadRun>}
 */
async function readRun(file) {
  if (!fs.existsSync(file)) return { failure: 'no trace' };
  const { report, fault, leftOut } = /** @type {{report?: Report & {refused?: {cause: string}}, fault?: string, leftOut: unknown[]}} */ (await judgeWithin(file));
  if (fault || !report) return { failure: `no report: ${String(fault).slice(0, 300)}` };
  if (report.refused) return { failure: `refused: ${report.refused.cause}` };
  /** @type {Names} */
  const names = JSON.parse(fs.readFileSync(file.replace(/trace$/, 'names.json'), 'utf8'));
  return { report, names, leftOut: (names.leftOut || leftOut).length, problems: new Problems(fs.readFileSync(file, 'utf8'), names, report) };
}

/**
 * @param {ReadRun} run
 * @returns {RunMeasured}
 */
function figuresOf(run) {
  if (run.failure !== undefined) return { failure: run.failure };
  const { report, names, leftOut, problems } = run;
  const lines = problems.lines();
  return {
    actions: report.actions,
    accesses: report.accesses,
    pairs: report.pairs,
    races: report.races.length,
    groups: report.groups.length,
    problems: lines.length,
    lines: new Listing([problems], null).told().length,
    looks: countBy(lines, ({ look }) => look.name),
    kinds: countBy(lines, ({ first }) => kindOf(report.races[first].location, names)),
    leftOut,
  };
}

/**
 * The problems of the first recording, and which of them came again in the second, by their names.
 * @param {ReadRun[]} runs
 * @returns {ProblemOfPage[]}
 */
function problemsOf([one, other]) {
  if (one.failure !== undefined) return [];
  const again = new Set(other.failure !== undefined ? [] : other.problems.list.map(({ name }) => name));
  return one.problems.lines().map(({ name, look, words, first }) => ({
    name, look: look.name, kind: kindOf(one.report.races[first].location, one.names), words: words.slice(0, MOST_WORDS), race: first + 1, isAgain: again.has(name),
  }));
}

/**
 * What er_page wrote of its replays: each race with the name of its problem. None where there was no race.
 * @param {string} folder
 * @returns {ReplayedRace[]}
 */
function replaysOf(folder) {
  const [races] = fs.existsSync(folder) ? fs.readdirSync(folder).filter((one) => one.endsWith('.races')) : [];
  const file = races && path.join(folder, races, 'page.replay.json');
  if (!file || !fs.existsSync(file)) return [];
  /** @type {{problems: ListedProblem[]}} */
  const listing = JSON.parse(fs.readFileSync(path.join(folder, 'listing.json'), 'utf8') || '{"problems":[]}');
  const nameOf = new Map(listing.problems.flatMap(({ name, races: own }) => own.map(({ race }) => /** @type {const} */ ([race, name]))));
  const isSeen = (/** @type {{isSeen?: boolean}[]|undefined} */ list) => (list || []).some((one) => one.isSeen);
  /** @type {{races: Replayed[]}} */
  const found = JSON.parse(fs.readFileSync(file, 'utf8'));
  return found.races.map(({ race, verdict, effect, why, isListed, differences, unsteady, byDelay, words }) => ({
    name: nameOf.get(race) || '',
    verdict: verdict !== 'turned' ? 'not turned' : differences.length ? 'differs' : 'same',
    ...effect ? { effect } : {},
    ...why ? { why: why.slice(0, MOST_WORDS) } : {},
    isListed: !!isListed,
    isApart: verdict === 'turned' && !differences.length && (isSeen(unsteady) || isSeen(byDelay)),
    words: words.slice(0, MOST_WORDS),
  }));
}

/** @param {string[]} words */
async function main([folder]) {
  /** @type {ReadRun[]} */
  const runs = [];
  for (const name of ['1.trace', '2.trace']) runs.push(await readRun(path.join(folder, name)));
  console.log(JSON.stringify({ runs: runs.map(figuresOf), problems: problemsOf(runs), replays: replaysOf(path.join(folder, 'replay')) }));
}

module.exports = { kindOf, replaysOf };

if (require.main === module) main(process.argv.slice(2));
