#!/usr/bin/env node
'use strict';
// packaged-names.js [--record N] [--first M] [--into DOCUMENT] FOLDER [PACKAGE..]: of pages that were recorded several times, FOLDER/PAGE/RUN/page.trace, what the list is worth:
// lines before and after folding, the share of places outside of libraries, how many names are the same in all runs, and what the races look like; at last
// the tables of docs/evaluation-tables.md, which with --into get their place there. With --record the pages of packaged.json are recorded before, N times each: the first M
// of them, or those that are named.

const fs = require('node:fs');
const os = require('node:os');
const path = require('node:path');
const { Listing } = require('../list/listing.js');
const { placesOf } = require('../list/places.js');
const { Problems } = require('../list/problems.js');
const { LOOKS } = require('../list/patterns/table.js');
const { judgeWithin } = require('../races/within-limits.js');
const { run } = require('./cleanup.js');
const { readPackaged, isInstalled } = require('./packaged-pages.js');
const { tablesOf, withTables } = require('./packaged-tables.js');

/**
 * @typedef {import('../list/types').Names} Names
 * @typedef {import('../list/types').Report} Report
 * @typedef {import('../list/listing.js').Problem} Problem
 * @typedef {import('./packaged-tables.js').Counts} Counts
 */

const RECORD = path.join(__dirname, '..', '..', 'er_record');
const LONGEST_RUN = 120000;
/** What --record says of itself. */
const SAID = 'recorded.txt';

/**
 * @param {import('./packaged-pages.js').PackagedPage} page
 * @param {string} folder
 */
async function record({ page, root = '/usr/share', words }, folder) {
  fs.mkdirSync(folder, { recursive: true });
  const file = path.join(folder, 'page.trace');
  const { status, stderr } = await run(RECORD, [page, file, '--root', root, ...words], { longest: LONGEST_RUN });
  fs.writeFileSync(path.join(folder, 'page.log'), stderr);
  if (status !== 0) throw new Error(`${page}: status ${status}: ${stderr}`);
}

/**
 * Records each page several times; one that fails is printed and left out.
 * @param {number} times
 * @param {string} folder
 * @param {number} first
 * @param {string[]} only
 */
async function recordAll(times, folder, first, only) {
  /** @type {number[]} */
  const loads = [];
  for (const one of readPackaged([]).slice(0, first).filter(({ package: name }) => !only.length || only.includes(name))) {
    const own = path.join(folder, one.package);
    try {
      if (!isInstalled(one)) throw new Error('not installed');
      for (let k = 1; k <= times; k++) {
        await record(one, path.join(own, String(k)));
        loads.push(os.loadavg()[0]);
      }
    } catch (fault) {
      console.log(`${one.package}: left out: ${String(fault instanceof Error ? fault.message : fault).trim()}`);
      fs.rmSync(own, { recursive: true, force: true });
    }
  }
  const { stdout } = await run(process.env.CHROMIUM || '/usr/bin/chromium', ['--version'], { longest: LONGEST_RUN });
  const chromium = stdout.trim().split(' ').slice(0, 2).join(' ');
  fs.writeFileSync(path.join(folder, SAID), `Recorded ${times} times each with ${chromium}, at a load of ${Math.min(...loads).toFixed(1)} to ${Math.max(...loads).toFixed(1)}.`);
}

/** @param {string} folder */
async function read(folder) {
  const file = path.join(folder, 'page.trace');
  const { report, fault } = /** @type {{report?: Report & {refused?: {cause: string}}, fault?: string}} */ (await judgeWithin(file));
  if (!report || fault || report.refused) throw new Error(`${folder}: ${fault || report?.refused?.cause}`);
  return new Problems(fs.readFileSync(file, 'utf8'), JSON.parse(fs.readFileSync(path.join(folder, 'page.names.json'), 'utf8')), report);
}

// ---- what is measured

/** @param {Set<string>[]} sets */
function share(sets) {
  const all = new Set(sets.flatMap((one) => [...one]));
  const equal = [...all].filter((name) => sets.every((one) => one.has(name)));
  return { equal: equal.length, all: all.size, others: [...all].filter((name) => !equal.includes(name)) };
}

/**
 * A problem in words alone: no numbers, and its sides in one order.
 * @param {{words: string}} problem
 */
function plainWords({ words }) {
  const [what, sides] = words.replace(/; nothing orders them.*$/, '').replace(/\d+/g, '0').split(/ is (.*)/);
  return [what, ...sides.split(', and ').sort()].join(' | ');
}

/**
 * The problem of a name that a run has.
 * @param {Problems[]} runs
 * @param {string} name
 * @returns {Problem}
 */
function problemOf(runs, name) {
  const found = runs.flatMap(({ list }) => list).find((one) => one.name === name);
  if (!found) throw new Error(`no problem ${name}`);
  return found;
}

/**
 * Names that are not in all runs though the problem is, in words: those that do not last. A run without a name has a problem of its words then, under a name
 * that no run with this one has too: two problems may differ in their lines alone, which the words lack.
 * @param {Problems[]} runs
 * @param {string[]} names
 */
function lost(runs, names) {
  const setsOf = runs.map(({ list }) => new Set(list.map(({ name }) => name)));
  const isBeside = (/** @type {string} */ name, /** @type {string} */ other) => setsOf.some((set) => set.has(name) && set.has(other));
  const hasOther = (/** @type {Problems} */ { list }, /** @type {string} */ name) => list.some((one) => plainWords(one) === plainWords(problemOf(runs, name)) && !isBeside(name, one.name));
  return names.filter((name) => runs.every((one, k) => setsOf[k].has(name) || hasOther(one, name)));
}

/**
 * Of the two sides of each race: for how many a place in the page's own code is known, that of the access or of its action; else one in a library, or none.
 * `access` and `byWay` count how many are the access's own, and how many are known by way of a library.
 * @param {Problems} problems
 * @param {Counts} counts
 */
function countPlaces(problems, counts) {
  const { words, words: { names, actions } } = problems;
  problems.report.races.forEach((race, k) => placesOf(problems, k).forEach((place, side) => {
    const isOwn = place && !words.isOfLibrary(place);
    counts[!place ? 'none' : isOwn ? 'own' : 'library']++;
    const access = words.placeOfLine(race.lines[side]);
    if (access && !words.isOfLibrary(access)) counts.access++;
    if (hasWay(actions.list[race.actions[side]], names)) counts.byWay++;
  }));
}

/**
 * Whether a library asked for an action in the place of the page's own code.
 * @param {import('../races/actions.js').Action} action
 * @param {Names} names
 */
function hasWay({ words: [word, number, , handler] }, names) {
  const facts = new Map([['timer', names.timeouts[number]], ['tick', names.intervals[number]], ['anim', names.intervals[number]], ['run', names.handlers[handler]]]);
  return !!facts.get(word)?.way;
}

/**
 * Of the sides of the race that each problem shows those with a place in the page's own code.
 * @param {Problems} problems
 * @param {Counts} counts
 */
function countFirsts(problems, counts) {
  problems.lines().forEach(({ first }) => placesOf(problems, first).forEach((place) => {
    counts.all++;
    if (place && !problems.words.isOfLibrary(place)) counts.own++;
  }));
}

/**
 * @param {Problems} problems
 * @param {Counts} counts
 */
function countLooks(problems, counts) {
  problems.lines().forEach(({ look }) => { counts[look.name] = (counts[look.name] || 0) + 1; });
}

/** @param {Counts} counts */
const inWords = (counts) => Object.values(LOOKS).filter(({ name }) => counts[name]).map(({ name }) => `${counts[name]} ${name}`).join(', ') || 'none';

/**
 * The measures of one page.
 * @param {Problems[]} runs
 */
function measure(runs) {
  const places = { own: 0, library: 0, none: 0, access: 0, byWay: 0 };
  /** @type {Counts} */
  const looks = {};
  const firsts = { own: 0, all: 0 };
  runs.forEach((one) => { countPlaces(one, places); countFirsts(one, firsts); });
  countLooks(runs[0], looks);
  const problems = share(runs.map((one) => new Set(one.list.map(({ name }) => name))));
  return {
    races: runs[0].report.races.length,
    groups: runs[0].report.groups.length,
    problems: runs[0].lines().length,
    lines: new Listing([runs[0]], null).told().length,
    ofRaces: share(runs.map((one) => new Set(one.ofRaces.map(({ name }) => name)))),
    ofProblems: problems,
    lost: lost(runs, problems.others).length,
    places,
    firsts,
    looks,
  };
}

/**
 * @param {string} name
 * @param {ReturnType<typeof measure>} measures
 */
function tell(name, { races, groups, problems, lines, ofRaces, ofProblems, lost: lostNames, places, looks }) {
  console.log(`${name}: ${races} races, ${groups} groups, ${problems} problems, ${lines} lines; names equal in all runs: problems ${ofProblems.equal} of ${ofProblems.all}, races ${ofRaces.equal} of ${ofRaces.all}, `
    + `and ${lostNames} that came in all by their words have another name; places: ${places.own} own (${places.access} of the access itself, ${places.byWay} by way of a library), ${places.library} in libraries, ${places.none} unknown; ${inWords(looks)}`);
}

/**
 * @param {Problems[]} runs
 * @param {string[]} names
 */
function tellOthers(runs, names) {
  for (const name of names) {
    const one = problemOf(runs, name);
    console.log(`  ${name} in ${runs.map(({ list }, k) => (list.some((some) => some.name === name) ? k + 1 : '-')).join(' ')}: ${one.words}`);
    if (process.env.SITES) console.log(`    ${one.sites.join('\n    ')}`);
  }
}

/** @param {string[]} words */
function optionsOf(words) {
  const left = [...words];
  const options = { times: 0, first: Infinity, document: '' };
  for (;;) {
    if (left[0] === '--record') options.times = Number(left.splice(0, 2)[1]);
    else if (left[0] === '--first') options.first = Number(left.splice(0, 2)[1]);
    else if (left[0] === '--into') [, options.document] = left.splice(0, 2);
    else return { ...options, folder: left[0], only: left.slice(1) };
  }
}

/**
 * @param {string} folder
 * @param {string[]} only
 */
async function measureAll(folder, only) {
  const measures = [];
  const pages = fs.readdirSync(folder).filter((name) => name !== SAID && (!only.length || only.includes(name))).sort();
  for (const page of pages) {
    const own = path.join(folder, page);
    /** @type {Problems[]} */
    const runs = [];
    for (const one of fs.readdirSync(own).sort()) runs.push(await read(path.join(own, one)));
    const measured = measure(runs);
    measures.push({ page, ...measured });
    tell(page, measured);
    tellOthers(runs, measured.ofProblems.others);
  }
  return measures;
}

/** @param {string[]} args */
async function main(args) {
  const { times, first, document, folder, only } = optionsOf(args);
  if (times) await recordAll(times, folder, first, only);
  const said = path.join(folder, SAID);
  const tables = tablesOf(await measureAll(folder, only), fs.existsSync(said) ? fs.readFileSync(said, 'utf8') : 'Recorded before.');
  console.log(tables.join('\n\n'));
  if (document) fs.writeFileSync(document, withTables(fs.readFileSync(document, 'utf8'), tables));
}

main(process.argv.slice(2));
