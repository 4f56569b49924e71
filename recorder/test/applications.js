#!/usr/bin/env node
'use strict';
// applications.js [options] FOLDER [NAME..]: records the applications of applications/list.js, or those that are named, and writes the tables of
// docs/measured/applications.md and the goals of docs/evaluation.md. Appends a line of JSON for each to FOLDER/applications.jsonl when it is done; at its end
// these replace the lines of applications/applications.jsonl. All servers end with it, also by Ctrl-C.

const fs = require('node:fs');
const path = require('node:path');
const { withoutCommands } = require('../common/shown.js');
const { programState } = require('../races/program.js');
const { run } = require('./cleanup.js');
const { APPLICATIONS } = require('./applications/list.js');
const { versionsOf, install } = require('./applications/installed.js');
const { appendLine, linesOf, STORED, textOf } = require('./applications/lines.js');
const { listAgain } = require('./applications/list-again.js');
const { recordApplication } = require('./applications/record-application.js');
const { documentOf, goalsOf } = require('./applications/tables.js');
const { withTexts } = require('./corpus/tables.js');
const { writeWhole } = require('../common/whole-file.js');

/**
 * @typedef {import('./applications/types').Application} Application
 * @typedef {import('./applications/types').Line} Line
 * @typedef {typeof DEFAULTS & {folder: string, only: string[]}} Options
 */

const USAGE = `usage: applications.js [options] FOLDER [NAME..]
  --install     installs the packages that are missing, with apt-get and without what it only recommends; else an application with a missing one is left out
  --loads N     so many loads of each page with and without the recorder, for their times (3)
  --replays N   so many races of each list are run again in the other order (0)
  --missing     only those that have no line in FOLDER yet, or failed
  --lists       records nothing: makes the lists of FOLDER's recordings again, and writes the tables
  --tables      records nothing: writes the tables of the lines that are there
Ctrl-C stops it: with --missing, the same call goes on.`;
const USAGE_STATUS = 2;
const DOCUMENTS = path.join(__dirname, '..', '..', 'docs');
const DOCUMENT = path.join(DOCUMENTS, 'measured', 'applications.md');
const EVALUATION = path.join(DOCUMENTS, 'evaluation.md');
const DEFAULTS = { installs: false, isMissingOnly: false, listsOnly: false, tablesOnly: false, loads: 3, replays: 0 };
/** @type {{[option: string]: 'installs'|'isMissingOnly'|'listsOnly'|'tablesOnly'}} */
const FLAGS = { '--install': 'installs', '--missing': 'isMissingOnly', '--lists': 'listsOnly', '--tables': 'tablesOnly' };
/** @type {{[option: string]: 'loads'|'replays'}} */
const NUMBERS = { '--loads': 'loads', '--replays': 'replays' };

/**
 * @param {string[]} words
 * @returns {Options|null}
 */
function optionsOf(words) {
  const options = { ...DEFAULTS };
  const left = [...words];
  while (left[0]?.startsWith('--')) {
    const name = String(left.shift());
    if (FLAGS[name]) options[FLAGS[name]] = true;
    else if (NUMBERS[name] && /^\d{1,3}$/.test(left[0] || '')) options[NUMBERS[name]] = Number(left.shift());
    else return null;
  }
  const [folder, ...only] = left;
  return folder && only.every((name) => APPLICATIONS[name]) ? { ...options, folder: path.resolve(folder), only } : null;
}

/**
 * The packages of which an application's are missing.
 * @param {Application} application
 */
async function missingOf({ package: name, packages }) {
  const all = [name, ...packages];
  const versions = await versionsOf(all);
  return all.filter((one) => !versions.has(one));
}

/** @param {Line} line */
function inWords(line) {
  if (line.failure !== undefined) return `${line.application}: failed: ${line.failure}`;
  const runs = line.runs.map(({ status, seconds, figures, failure }) => (
    `status ${status}, ${Math.round(seconds)} s, ${figures ? `${figures.races} races, ${figures.lines} lines` : failure}`));
  return `${line.application}: ${runs.join('; ')}`;
}

/**
 * @param {Application} application
 * @param {string} chromium
 * @param {Options} options
 * @returns {Promise<Line>}
 */
async function lineOf(application, chromium, options) {
  const missing = await missingOf(application);
  if (missing.length && options.installs) await install(missing);
  const version = (await versionsOf([application.package])).get(application.package) || '';
  if (missing.length && !options.installs) {
    return { application: application.package, version, began: new Date().toISOString(), seconds: 0, failure: `not installed: ${missing.join(' ')}` };
  }
  return recordApplication(application, { version, chromium }, options);
}

/**
 * Records applications, and appends a line of each to a file.
 * @param {string} file
 * @param {Options} options
 */
async function recordAll(file, options) {
  const { stdout } = await run(process.env.CHROMIUM || '/usr/bin/chromium', ['--version'], { longest: 60000 });
  const chromium = stdout.trim().split(' ').slice(0, 2).join(' ');
  const done = new Set(options.isMissingOnly ? linesOf(file).filter(({ failure }) => failure === undefined).map(({ application }) => application) : []);
  const names = (options.only.length ? options.only : Object.keys(APPLICATIONS)).filter((name) => !done.has(name));
  for (const name of names) {
    const line = await lineOf(APPLICATIONS[name], chromium, options);
    appendLine(file, line);
    console.log(withoutCommands(inWords(line)));
  }
}

/**
 * Makes the lists of the recordings in a folder again, and appends the lines.
 * @param {string} file
 * @param {Options} options
 */
async function listAll(file, { folder, only }) {
  for (const line of linesOf(file)) {
    if (line.failure !== undefined || (only.length && !only.includes(line.application))) continue;
    const again = await listAgain(line, folder);
    appendLine(file, again);
    console.log(withoutCommands(inWords(again)));
  }
}

/** @param {string[]} words */
async function main(words) {
  const options = optionsOf(words);
  if (!options) {
    console.error(USAGE);
    return USAGE_STATUS;
  }
  const file = path.join(options.folder, 'applications.jsonl');
  fs.mkdirSync(options.folder, { recursive: true });
  if (!options.tablesOnly) {
    if (programState() !== 'built') {
      console.error('applications.js: nothing done: it takes the built analyzer: ./er_cli --build, or ER_CLI names one');
      return USAGE_STATUS;
    }
    await (options.listsOnly ? listAll : recordAll)(file, options);
  }
  const lines = linesOf(STORED, file);
  writeWhole(STORED, textOf(lines));
  writeWhole(DOCUMENT, documentOf(lines));
  withTexts([fs.readFileSync(EVALUATION, 'utf8')], goalsOf(lines)).forEach((text) => writeWhole(EVALUATION, text));
  return 0;
}

main(process.argv.slice(2)).then((status) => { process.exitCode = status; });
