#!/usr/bin/env node
'use strict';
// same-traces.js [--times N] [--packaged] [--words FILE] CHECKOUT [PAGE..]: records pages by the recorder of another checkout and by this one, alternately,
// and compares the traces, except numbers that differ by run. By hand, after a change that is to change no trace.
//
// The pages are those of pages.test.js, or with --packaged those of packaged.json whose package is installed. A page whose order differs from run to run
// is recorded up to N times by each (4): it is the same if any two traces are equal. Ends with 1 where a page is different.

const fs = require('node:fs');
const os = require('node:os');
const path = require('node:path');
const { parseArgs } = require('node:util');
const { run, temporaryFolder } = require('./cleanup.js');
const { FORMS } = require('../trace/records.js');
const { readPackaged, isInstalled } = require('./packaged-pages.js');

/**
 * @typedef {{name: string, page: string, words: string[]}} Compared
 * @typedef {{lines: string[], load?: number}} Run a trace without its numbers, and the time of the load
 */

const TOP = path.join(__dirname, '..', '..');
const LONGEST_RUN = 120000;
const MOST_SHOWN = 6;

/**
 * What the numbers of a record are, by its keyword: a letter for each argument (`g` for a group); a dot is no number, or one that is the same in each run.
 * @type {{[word: string]: string}}
 */
const NUMBERS = Object.fromEntries(FORMS.map(({ word, arguments: given }) => [word, given.toLowerCase().replace('?', '.d').replace(/^p#/, 'pg').replace(/[^a-z]/g, '.')]));
const LOCATIONS = { var: 'o', elem: 'd', slot: 'e' };

/**
 * A name without what libraries make of the time or of random numbers.
 * @param {string} name
 */
const withoutChance = (name) => name.replace(/\d{9,}/g, '#');

/** The numbers of a trace, each by the order in which it came first among those of its kind. */
class Renaming {
  constructor() {
    /** @type {Map<string, Map<string, string>>} */
    this.kinds = new Map();
  }

  /** @param {string} kind @param {string} number */
  of(kind, number) {
    const known = this.kinds.get(kind) || new Map();
    this.kinds.set(kind, known);
    if (!known.has(number)) known.set(number, `${kind}${known.size}`);
    return known.get(number);
  }

  /** @param {string} line */
  line(line) {
    const [keyword, ...words] = line.split(' ');
    if (keyword === 'r' || keyword === 'w') {
      const [kind, number, name] = words;
      // the name of a slot may end with the number of its handler
      return `${keyword} ${kind} ${this.of(LOCATIONS[/** @type {'var'} */ (kind)], number)} ${kind === 'slot' ? withoutChance(name).replace(/\/\d+$/, '/h') : withoutChance(name)}`;
    }
    const kinds = NUMBERS[keyword] || '';
    return [keyword, ...words.map((word, k) => (kinds[k] && kinds[k] !== '.' && /^\d+$/.test(word) ? this.of(kinds[k], word) : word))].join(' ');
  }
}

/** @param {string} text */
function withoutNumbers(text) {
  const renaming = new Renaming();
  return text.split('\n').map((line) => renaming.line(line));
}

/**
 * Records a page, and answers the trace, and the times that the recorder prints.
 * @param {string} checkout
 * @param {string} page
 * @param {string[]} words
 * @param {string} file
 * @returns {Promise<Run>}
 */
async function record(checkout, page, words, file) {
  const { status, stderr } = await run(path.join(checkout, 'er_record'), [page, file, ...words], { longest: LONGEST_RUN });
  if (!fs.existsSync(file)) return { lines: [`no trace: status ${status}`, ...stderr.split('\n').slice(0, MOST_SHOWN)] };
  const lines = withoutNumbers(fs.readFileSync(file, 'utf8'));
  fs.rmSync(file);
  return { lines, load: Number(/load of the page: ([\d.]+) s/.exec(stderr)?.[1]) };
}

/**
 * The first lines that are not the same.
 * @param {string[]} before
 * @param {string[]} now
 */
function difference(before, now) {
  const at = before.findIndex((line, k) => line !== now[k]);
  const from = at < 0 ? before.length : at;
  const shown = (/** @type {string[]} */ lines) => lines.slice(from, from + MOST_SHOWN).join('; ');
  return `line ${from + 1} of ${before.length} and ${now.length}: ${shown(before)} | ${shown(now)}`;
}

/**
 * Records a page by both checkouts, up to `times` times, until two traces are equal.
 * @param {string} checkout
 * @param {Compared} page
 * @param {number} times
 * @param {string} folder
 */
async function compare(checkout, { page, words }, times, folder) {
  /** @type {Run[]} */
  const before = [];
  /** @type {Run[]} */
  const now = [];
  for (let k = 0; k < times; k++) {
    before.push(await record(checkout, page, words, path.join(folder, 'before.trace')));
    now.push(await record(TOP, page, words, path.join(folder, 'now.trace')));
    const isSame = before.some((one) => now.some((other) => one.lines.join('\n') === other.lines.join('\n')));
    if (isSame) return { isSame, before, now };
  }
  return { isSame: false, before, now };
}

/** @returns {Compared[]} */
function testPages() {
  const { cases } = require('./cases.js');
  return cases.filter(({ page, version }) => !version && !/^https?:/.test(page))
    .map(({ page, words = [] }) => ({ name: page, page: path.join('recorder/test/pages', page), words: [...words, '--keep'] }));
}

/** @returns {Compared[]} */
function packagedPages() {
  return readPackaged([]).filter(isInstalled)
    .map(({ package: name, page, root = '/usr/share', words }) => ({ name, page, words: ['--root', root, ...words, '--seed', '1'] }));
}

/** @param {number[]} numbers */
const median = (numbers) => [...numbers].sort((a, b) => a - b)[Math.floor(numbers.length / 2)];

async function main() {
  const { values, positionals: [checkout, ...names] } = parseArgs({
    options: { times: { type: 'string', default: '4' }, packaged: { type: 'boolean', default: false } }, allowPositionals: true,
  });
  if (!checkout) throw new Error('usage: same-traces.js [--times N] [--packaged] CHECKOUT [PAGE..]');
  const folder = temporaryFolder('same-traces');
  const pages = (values.packaged ? packagedPages() : testPages()).filter(({ name }) => !names.length || names.includes(name));
  process.chdir(TOP);
  /** @type {{before: number[], now: number[]}} */
  const loads = { before: [], now: [] };
  let different = 0;
  for (const one of pages) {
    const page = path.resolve(TOP, one.page.replace(/[?#].*$/, '')) + (/[?#].*$/.exec(one.page)?.[0] || '');
    const { isSame, before, now } = await compare(path.resolve(checkout), { ...one, page }, Number(values.times), folder);
    if (!isSame) different++;
    loads.before.push(...before.flatMap(({ load }) => load || []));
    loads.now.push(...now.flatMap(({ load }) => load || []));
    console.log(`${one.name}: ${isSame ? `the same (${before.length})` : `DIFFERENT, ${difference(before[before.length - 1].lines, now[now.length - 1].lines)}`}`);
  }
  console.log(`${pages.length} pages, ${different} different; median of the loads ${median(loads.before)} s before, ${median(loads.now)} s now; ${os.loadavg()[0].toFixed(1)} at work`);
  process.exitCode = different ? 1 : 0;
}

if (require.main === module) main();
