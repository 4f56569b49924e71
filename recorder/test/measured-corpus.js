'use strict';
// Measures the pages of the evaluation (corpus.json) with orders.js or timeline.js: each page in a process of its own, several at once, each for at
// most some minutes. Each page that is done, or fails, is a line of JSON in a file of the folder: a call that was stopped goes on where it was.
//
// --corpus FOLDER  where corpus.js has unpacked the packages; the words after the options are names of packages, none for all
// --side-by-side N  so many pages at once (1)
// --minutes N  for a page at most (30); its recordings stay
// --again  the pages too that failed before
// --pause FILE  no page starts while FILE is there, for instance because something else is timed on this machine
// --only PAGE  the one page that this process measures; it prints its line alone

const fs = require('node:fs');
const path = require('node:path');
const { sleep } = require('../common/time.js');
const { withoutCommands } = require('../common/shown.js');
const { run } = require('./cleanup.js');
const { readCorpus } = require('./corpus.js');
const { RUNS, faultOf } = require('./corpus/calls.js');
const { readLines, appendLine } = require('./corpus/lines.js');
const { Unpacked } = require('./corpus/packages.js');
const { fileName } = require('./corpus/record-page.js');
const { commitOf } = require('./measured-pages.js');

/**
 * @typedef {import('./measured-pages.js').MeasuredPage} MeasuredPage
 * @typedef {object} OverCorpus
 * @property {string} folder
 * @property {number} lanes
 * @property {number} minutes
 * @property {boolean} isAgain
 * @property {string|null} pause
 * @property {string|null} only
 */

/**
 * What a line has besides what the tool found. The commits are those at which the page was recorded.
 * @typedef {{page: string, name: string, commits: string[], seconds: number, failure?: string}} PageFacts
 */

/**
 * How a page is measured: by which tool with which words, whether a line of an earlier call is enough, and whether recordings of earlier calls stay.
 * @template {object} T
 * @typedef {object} Measuring
 * @property {string} tool
 * @property {string} file of the lines
 * @property {string[]} words
 * @property {(line: T) => boolean} isEnough
 * @property {boolean} goesOn
 * @property {(line: T) => string} inWords
 */

const HEAP = '--max-old-space-size=6144';
/** A process that computes does not answer a signal, and is ended so many milliseconds later. */
const LAST_CHANCE = 20000;
const POLL = 1000;

/**
 * Takes the options of a measurement over the corpus out of the words of a tool; null if there are none.
 * @param {string[]} left
 * @returns {OverCorpus|null}
 */
function takeCorpus(left) {
  const take = (/** @type {string} */ name) => (left.includes(name) ? left.splice(left.indexOf(name), 2)[1] : null);
  const folder = take('--corpus');
  if (folder === null) return null;
  const [lanes, minutes, pause, only] = [Number(take('--side-by-side') || 1), Number(take('--minutes') || 30), take('--pause'), take('--only')];
  const isAgain = left.includes('--again') && left.splice(left.indexOf('--again'), 1).length > 0;
  return { folder: path.resolve(folder), lanes, minutes, isAgain, pause, only };
}

/**
 * A page of the corpus as it is in tables: its package and its file.
 * @param {{package: string, page: string}} entry
 */
const nameOf = ({ package: name, page }) => `${name}, ${page.split('/').slice(-2).join('/')}`;

/**
 * A page with the clicks and the network of the evaluation's first recording.
 * @param {OverCorpus} over
 * @returns {MeasuredPage}
 */
function pageOfCorpus({ folder, only }) {
  const entry = readCorpus([]).find(({ page }) => page === only);
  if (!entry) throw new Error(`no page of corpus.json: ${only}`);
  const { root } = new Unpacked(folder);
  return { name: nameOf(entry), file: fileName(entry.page), page: path.join(root, entry.page), words: [...RUNS[0], '--root', root] };
}

/**
 * The pages that have no line yet which is enough.
 * @template {object} T
 * @template {{page: string}} E
 * @param {E[]} entries
 * @param {(T & PageFacts)[]} lines
 * @param {(line: T) => boolean} isEnough
 * @param {boolean} isAgain
 */
function entriesLeft(entries, lines, isEnough, isAgain) {
  const known = new Map(lines.map((line) => [line.page, line]));
  return entries.filter(({ page }) => {
    const line = known.get(page);
    if (!line) return true;
    return line.failure === undefined ? !isEnough(line) : isAgain;
  });
}

/**
 * Measures one page in a process of its own.
 * @template {object} T
 * @param {{package: string, page: string}} entry
 * @param {OverCorpus} over
 * @param {Measuring<T>} measuring
 * @returns {Promise<T & PageFacts>}
 */
async function measureOne(entry, { folder, minutes }, { tool, words }) {
  const begin = Date.now();
  const longest = minutes * 60000;
  const given = [HEAP, tool, ...words, '--corpus', folder, '--only', entry.page];
  const { status, stdout, stderr } = await run(process.execPath, given, { longest, timeout: longest + LAST_CHANCE, killSignal: 'SIGKILL' });
  const seconds = (Date.now() - begin) / 1000;
  const known = { page: entry.page, name: nameOf(entry), commits: [commitOf()], seconds };
  if (status === 0) return { ...known, ...JSON.parse(stdout) };
  const why = seconds * 1000 >= longest ? `not done after ${minutes} minutes` : `status ${status}: ${faultOf(stderr)}`;
  return /** @type {T & PageFacts} */ (/** @type {unknown} */ ({ ...known, failure: why }));
}

/**
 * Measures what is left of the corpus, and returns the lines of all pages, in the order of their names.
 * @template {object} T
 * @param {OverCorpus} over
 * @param {string[]} only names of packages
 * @param {Measuring<T>} measuring
 * @returns {Promise<(T & PageFacts)[]>}
 */
async function measureCorpus(over, only, measuring) {
  const file = path.join(over.folder, measuring.file);
  const entries = readCorpus(only);
  const lines = () => /** @type {(T & PageFacts)[]} */ (/** @type {unknown} */ (readLines(file)));
  const left = entriesLeft(entries, lines(), measuring.isEnough, over.isAgain);
  let count = entries.length - left.length;
  const earlier = new Map(measuring.goesOn ? lines().map(({ page, commits }) => [page, commits]) : []);
  const lane = async () => {
    for (let entry = left.shift(); entry; entry = left.shift()) {
      while (over.pause && fs.existsSync(over.pause)) await sleep(POLL);
      const line = await measureOne(entry, over, measuring);
      appendLine(file, { ...line, commits: [...new Set([...earlier.get(entry.page) || [], ...line.commits])] });
      const told = line.failure === undefined ? measuring.inWords(line) : `failed: ${line.failure}`;
      console.log(withoutCommands(`${++count} of ${entries.length}: ${line.name}: ${told}; ${Math.round(line.seconds)} s`));
    }
  };
  await Promise.all(Array.from({ length: over.lanes }, lane));
  const pages = new Set(entries.map(({ page }) => page));
  return lines().filter(({ page }) => pages.has(page)).sort((a, b) => (a.name < b.name ? -1 : 1));
}

/**
 * At which commits the pages were recorded, for the end of a sentence.
 * @param {{name: string, commits?: string[]}[]} lines
 */
function commitsOf(lines) {
  const commits = [...new Set(lines.flatMap((line) => line.commits || []))].sort();
  return commits.length ? `, of recordings made at commit ${commits.join(' and ')}` : '';
}

module.exports = { takeCorpus, pageOfCorpus, measureCorpus, entriesLeft, commitsOf };
