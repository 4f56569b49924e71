#!/usr/bin/env node
'use strict';
// corpus.js [--install] [--side-by-side N] [--most N] [--minutes N] [--loads N] [--recordings] [--times] [--again] [--quiet] FOLDER [PACKAGE..]: the evaluation
// (docs/evaluation.md). Records the pages of corpus.json, or of the packages that are named, each with five clicks and a slow network in two seeds, judges
// them, and runs the first problems of each page again in the other order. Appends a line of JSON for each page to FOLDER/pages.jsonl when it is done, so it
// can be stopped, and goes on where it was: also after the two recordings of a page that is not done.

const { createHash } = require('node:crypto');
const fs = require('node:fs');
const path = require('node:path');
const { withoutCommands } = require('../common/shown.js');
const { programState } = require('../races/program.js');
const { run } = require('./cleanup.js');
const { readLines, appendLine, isDone, isQuiet } = require('./corpus/lines.js');
const { Unpacked } = require('./corpus/packages.js');
const { recordPage, doAlone, folderOf, recordingsIn } = require('./corpus/record-page.js');

/**
 * @typedef {import('./corpus/types').Corpus} Corpus
 * @typedef {import('./corpus/types').Entry} Entry
 * @typedef {import('./corpus/types').Line} Line
 * @typedef {typeof DEFAULTS & {folder: string, only: string[]}} Options
 * @typedef {{page: string}} Paged
 */

const USAGE = `usage: corpus.js [options] FOLDER [PACKAGE..]
  --install         fetches the packages that are missing, with apt-get, and unpacks them in FOLDER; else it is said which are missing, and nothing is done
  --side-by-side N  so many pages at once (1)
  --most N          so many problems of each page are run again in the other order (5)
  --minutes N       for at most so many minutes a page (60); what was found until then stays
  --loads N         so many loads of each page with and without the recorder, for their times (3); 0 where the machine is not quiet
  --recordings      the two recordings of each page alone, which take no program; a later call goes on after them
  --times           the loads of each page alone, which take no program: for those that have none yet with nothing else at work
  --again           records the pages anew that failed before
  --quiet           records the pages anew that were recorded with other work on the machine`;
const USAGE_STATUS = 2;
/** @type {{[option: string]: 'lanes'|'most'|'minutes'|'loads'}} */
const NUMBERS = { '--side-by-side': 'lanes', '--most': 'most', '--minutes': 'minutes', '--loads': 'loads' };
/** @type {{[option: string]: 'installs'|'recordsOnly'|'timesOnly'|'recordsFailed'|'recordsBusy'}} */
const FLAGS = { '--install': 'installs', '--recordings': 'recordsOnly', '--times': 'timesOnly', '--again': 'recordsFailed', '--quiet': 'recordsBusy' };

const DEFAULTS = { lanes: 1, most: 5, minutes: 60, loads: 3, installs: false, recordsOnly: false, timesOnly: false, recordsFailed: false, recordsBusy: false };

/**
 * @param {string} name
 * @param {string} word
 */
const isNumberFor = (name, word) => /^\d{1,4}$/.test(word) && (name === '--loads' || Number(word) > 0);

/**
 * @param {string[]} words
 * @returns {Options|null}
 */
function optionsOf(words) {
  const options = { ...DEFAULTS };
  const left = [...words];
  while (left[0]?.startsWith('--')) {
    const name = String(left.shift());
    if (FLAGS[name]) options[FLAGS[name]] = true;
    else if (NUMBERS[name] && isNumberFor(name, left[0] || '')) options[NUMBERS[name]] = Number(left.shift());
    else return null;
  }
  return left.length ? { ...options, folder: path.resolve(left[0]), only: left.slice(1) } : null;
}

/** @param {Paged} entry */
const rankOf = ({ page }) => createHash('sha256').update(page).digest('hex');

/**
 * @param {import('./corpus/types').ListedPackage|undefined} known
 * @param {string} page
 */
const entryOf = (known, page) => (known ? [{ ...known, page }] : []);

/**
 * The pages to be recorded, each with what is known of its package. Their order is no kind's, so that those of a run that is stopped are a sample of all.
 * @param {string[]} only
 * @returns {Entry[]}
 */
function readCorpus(only) {
  /** @type {Corpus} */
  const { packages, pages } = JSON.parse(fs.readFileSync(path.join(__dirname, 'corpus.json'), 'utf8'));
  const byName = new Map(packages.map((one) => [one.package, one]));
  const entries = pages.flatMap(({ package: name, page }) => entryOf(byName.get(name), page)).filter(({ package: name }) => !only.length || only.includes(name));
  return entries.sort((a, b) => (rankOf(a) < rankOf(b) ? -1 : 1));
}

/**
 * Fetches what is missing, or prints it.
 * @param {Entry[]} entries
 * @param {Unpacked} unpacked
 * @param {Options} options
 */
async function install(entries, unpacked, { installs, folder }) {
  const names = [...new Set(entries.flatMap(({ package: name, needs }) => [name, ...needs]))];
  const missing = names.filter((name) => !unpacked.has(name));
  if (!missing.length) return true;
  console.error(`corpus.js: ${missing.length} packages are missing in ${folder}: ${missing.join(' ')}`);
  if (!installs) {
    console.error(`corpus.js: nothing done. With --install they are fetched with apt-get (of a new machine, apt-get update before), and unpacked in ${folder}; nothing is installed`);
    return false;
  }
  await unpacked.add(missing);
  return true;
}

/** @param {Line} line */
function told(line) {
  if (!isDone(line)) return `${line.page}: failed: ${line.failure}`;
  const { page, seconds, runs, problems, replay } = line;
  const [{ nothing, actions, races }] = runs;
  const what = nothing || `${actions} actions, ${races} races, ${problems.length} problems`;
  return `${page}: ${what}; run again: ${replay.races.map(({ verdict }) => verdict).join(', ') || 'none'}; ${Math.round(seconds)} s`;
}

/**
 * Records pages one after another, until none is left.
 * @param {Entry[]} left
 * @param {{file: string, count: number, of: number}} done
 * @param {Unpacked} unpacked
 * @param {string} chromium
 * @param {Options} options
 */
async function recordLane(left, done, unpacked, chromium, options) {
  for (let entry = left.shift(); entry; entry = left.shift()) {
    if (options.recordsOnly || options.timesOnly) {
      console.log(withoutCommands(await doAlone(entry, unpacked, options, done.file)));
    } else {
      const line = await recordPage(entry, unpacked, chromium, options);
      appendLine(done.file, line);
      done.count++;
      console.log(withoutCommands(`${done.count} of ${done.of}: ${told(line)}`));
    }
  }
}

/**
 * Whether a page was recorded since its line was written: by a call that was stopped then, or with --recordings.
 * @param {Line} line
 * @param {string} folder
 */
function isRecordedSince({ began, seconds }, folder) {
  const file = fs.statSync(recordingsIn(folder), { throwIfNoEntry: false });
  return file !== undefined && file.mtimeMs > Date.parse(began) + seconds * 1000;
}

/**
 * The pages that are not done. Of one that is recorded anew nothing is taken that its line is of.
 * @template {Paged} T
 * @param {T[]} entries
 * @param {string} file
 * @param {Pick<Options, 'folder'|'recordsFailed'|'recordsBusy'>} options
 */
function entriesLeft(entries, file, options) {
  const stays = (/** @type {Line} */ line) => !(line.failure && options.recordsFailed) && !(!isQuiet(line) && options.recordsBusy);
  const lines = new Map(readLines(file).map((line) => [line.page, line]));
  const left = entries.filter(({ page }) => {
    const line = lines.get(page);
    return !line || !stays(line);
  });
  for (const entry of left) {
    const line = lines.get(entry.page);
    const folder = folderOf(entry, options);
    if (line && !isRecordedSince(line, folder)) fs.rmSync(folder, { recursive: true, force: true });
  }
  return left;
}

/** @param {string[]} words */
async function main(words) {
  const options = optionsOf(words);
  if (!options) {
    console.error(USAGE);
    return USAGE_STATUS;
  }
  if (!options.recordsOnly && !options.timesOnly && programState() !== 'built') {
    console.error('corpus.js: nothing done: it takes the built program: ./er_cli --build, or ER_CLI names one');
    return USAGE_STATUS;
  }
  const unpacked = new Unpacked(options.folder);
  const entries = readCorpus(options.only);
  if (!await install(entries, unpacked, options)) return USAGE_STATUS;
  const file = path.join(options.folder, 'pages.jsonl');
  const left = options.timesOnly ? [...entries] : entriesLeft(entries, file, options);
  const { stdout } = await run(process.env.CHROMIUM || '/usr/bin/chromium', ['--version'], { longest: 60000 });
  const chromium = stdout.trim().split(' ').slice(0, 2).join(' ');
  const done = { file, count: entries.length - left.length, of: entries.length };
  await Promise.all(Array.from({ length: options.lanes }, () => recordLane(left, done, unpacked, chromium, options)));
  return 0;
}

module.exports = { readCorpus, entriesLeft, folderOf, recordingsIn };

if (require.main === module) main(process.argv.slice(2)).then((status) => { process.exitCode = status; });
