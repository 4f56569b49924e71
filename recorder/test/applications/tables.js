'use strict';
// docs/measured/applications.md: what was recorded of each application, and what the judged problems come to. And the goals, for docs/evaluation.md.

const { execFileSync } = require('node:child_process');
const fs = require('node:fs');
const path = require('node:path');
const { IDLE, LINKS, LOOKS } = require('../../list/patterns/table.js');
const { tableOf, told } = require('../corpus/tables.js');
const { bugTable } = require('./confirmed.js');
const { judgementText } = require('./judged.js');
const { goalTable } = require('./goals.js');
const { APPLICATIONS } = require('./list.js');
const { timesOf } = require('./times.js');

/**
 * @typedef {import('./types').DoneLine} DoneLine
 * @typedef {import('./types').FailedLine} FailedLine
 * @typedef {import('./types').Line} Line
 */

const SECTIONS = [...new Set([...Object.values(LOOKS).map(({ part }) => part), LINKS, IDLE])];
const HEAD = ['Application', 'Version', 'Log-in', 'Load without, with (s)', 'Times', 'Actions', 'Accesses', 'Races', 'Lines', 'By section', 'Again', 'Status',
  '`er_page` (s)'];
const ABOUT = `Each is recorded twice by \`er_page\`, on a slow network, while a user does what its module in \`recorder/test/applications/packages/\` says.
Counts are those of the first recording. Times of loads are medians on a quick network. Status: 0 no race, 1 a race, 4 no race in a recording that was cut,
6 a step was not done.`;
const JUDGEMENTS = path.join(__dirname, 'judgements.json');
const LEFT_OUT = path.join(__dirname, 'left-out.json');

/** @param {number} number */
const whole = (number) => Math.round(number).toLocaleString('en-GB');

/** @param {DoneLine} line */
function timeCells(line) {
  const times = timesOf(line);
  return times ? [`${times.without.toFixed(1)}, ${times.own.toFixed(1)}`, (times.own / times.without).toFixed(1)] : ['', ''];
}

/** @param {{[part: string]: number}} sections */
const inSections = (sections) => SECTIONS.map((part) => sections[part] || 0).join(', ');

/** @param {DoneLine} line */
function rowOf(line) {
  const { application, version, login, runs, problems } = line;
  const [{ figures }] = runs;
  const numbers = figures ? [figures.actions, figures.accesses, figures.races, figures.lines].map(whole) : ['', '', '', ''];
  const counts = [...numbers, figures ? inSections(figures.sections) : ''];
  return [application, told(version), login, ...timeCells(line), ...counts, `${problems.filter(({ isAgain }) => isAgain).length} of ${problems.length}`,
    runs.map(({ status }) => status).join(', '), runs.map(({ seconds }) => seconds.toFixed(0)).join(', ')];
}

/** @param {DoneLine} line */
function troublesOf({ application, runs }) {
  return runs.flatMap(({ failure, notDone, notRecorded, errors }, k) => {
    const lines = [...notDone, ...notRecorded.map((one) => `not recorded: ${one}`), ...errors.map((one) => `error: ${one}`)];
    const texts = failure ? [`no list: ${failure}`, ...lines] : lines;
    return texts.map((text) => `- ${application}, recording ${k + 1}: ${told(text)}`);
  });
}

/** @returns {{package: string, reason: string}[]} the candidates that are no applications, or that did not start */
const leftOut = () => JSON.parse(fs.readFileSync(LEFT_OUT, 'utf8'));

/** A line for each reason, with the candidates that it keeps out. */
function reasons() {
  const all = leftOut();
  const names = (/** @type {string} */ reason) => all.filter((one) => one.reason === reason).map(({ package: name }) => name).join(', ');
  return [...new Set(all.map(({ reason }) => reason))].map((reason) => `- ${reason}: ${names(reason)}`);
}

/**
 * A line for the applications that start, and have not been recorded.
 * @param {Line[]} lines
 */
function notYet(lines) {
  const names = Object.keys(APPLICATIONS).filter((name) => !lines.some(({ application }) => application === name));
  return names.length ? [`- starts, and is not recorded yet: ${names.join(', ')}`] : [];
}

/**
 * The machine of the recordings.
 * @param {DoneLine[]} done
 */
function machineOf(done) {
  if (!done.length) return '';
  const loads = done.flatMap(({ machine }) => machine.loads);
  const [{ machine: { chromium, processors } }] = done;
  return `, with ${chromium} on ${processors} processors at a load of ${Math.min(...loads).toFixed(1)} to ${Math.max(...loads).toFixed(1)}`;
}

/** @param {Line[]} lines */
const doneOf = (lines) => /** @type {DoneLine[]} */ (lines.filter(({ failure }) => failure === undefined));

/** @returns {import('./types').Judgements} */
const readJudgements = () => JSON.parse(fs.readFileSync(JUDGEMENTS, 'utf8'));

/**
 * The text between the marks of docs/evaluation.md.
 * @param {Line[]} lines
 */
const goalsOf = (lines) => ({ applications: goalTable(doneOf(lines), readJudgements()) });

/** @param {Line[]} lines */
function documentOf(lines) {
  const done = doneOf(lines);
  const failed = /** @type {FailedLine[]} */ (lines.filter(({ failure }) => failure !== undefined));
  const commit = execFileSync('git', ['rev-parse', '--short=12', 'HEAD'], { cwd: __dirname, encoding: 'utf8' }).trim();
  const day = done.map(({ began }) => began.slice(0, 10)).sort().pop() || '';
  const not = [...failed.map(({ application, failure }) => `- ${application}: ${told(failure)}`), ...notYet(lines), ...reasons()];
  return [
    `Written by recorder/test/applications.js at commit ${commit} on ${day}.`,
    '# Web applications',
    `${done.length} applications of Debian's packages, chosen by the rule of \`recorder/test/applications/README.md\`${machineOf(done)}.`,
    `${ABOUT} Sections, in this order: ${SECTIONS.join('; ')}.`,
    tableOf(HEAD, done.map(rowOf)),
    '## Problems, judged by hand',
    judgementText(readJudgements()),
    '## Bugs, confirmed in a browser without the recorder',
    bugTable(done),
    '## What the recordings reported',
    done.flatMap(troublesOf).join('\n') || 'Nothing.',
    '## Not recorded',
    not.join('\n') || 'None.',
  ].join('\n\n').concat('\n');
}

module.exports = { documentOf, goalsOf, leftOut };
