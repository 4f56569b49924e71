'use strict';
// Analyzes lines of a trace; and traces with races, as a list reads them.

const fs = require('node:fs');
const path = require('node:path');
const { judge } = require('../races/program.js');
const { temporaryFolder } = require('./cleanup.js');

const folder = temporaryFolder('list-test');
let files = 0;

/** @typedef {import('../races/types').Report} Report */
/** @typedef {import('../list/types').Names} Names */

const EXAMPLES = path.join(__dirname, '..', '..', 'examples');
/** @type {Names} */
const NAMES = { files: [{ address: 'http://a/page.html', text: 'a\n' }], elements: {}, documents: {}, handlers: {}, timeouts: {}, intervals: {}, requests: {}, dispatches: {}, objects: {}, places: {} };

/** Two replies that write the same: a line has a race that the group of another line covers. */
const REPLIES = ['parse 0 1 inline', 'exec 1', 'send 1', 'send 2', 'reply 1 1', 'w var 0 open', 'w var 0 list', 'w var 0 more', 'close 1', 'reply 2 2', 'r var 0 open', 'w var 0 list', 'w var 0 more', 'close 2'];
/** A late handler of a mouse that moves, which changes nothing, and another race: a replay can move the first one to another section. */
const IDLE = ['parse 0 1 plain', 'parse 0 2 async', 'parse 0 3 async', 'exec 2', 'on 1', 'w slot 1 mouseover/1', 'w var 0 x', 'exec 3', 'w var 0 x', 'fire 1 1 mouseover', 'r slot 1 mouseover/1', 'run 1 0 1', 'r var 0 y', 'close 1'];
/** A line with the pattern of a race that it covers. */
const LATE = ['parse 0 1 plain', 'parse 0 2 async', 'exec 2', 'w var 0 ready', 'on 1', 'w slot 1 click/1', 'fire 1 1 click', 'r var 0 ready', 'r slot 1 click/1', 'close 1'];
const BUTTON = { elements: { 1: { tag: 'button', id: 'go' } }, handlers: { 1: { type: 'click', target: 1 } } };
/** @type {[lines: string[], facts: Partial<Names>][]} */
const MADE = [
  [REPLIES, { values: { 7: 'o', 8: 'o', 9: 'o', 12: 'o', 13: 'o', 14: 'o' }, befores: { 7: 'o' } }],
  [IDLE, { ...BUTTON, handlers: { 1: { type: 'mouseover', target: 1 } } }],
  [LATE, { ...BUTTON, values: { 5: 'o', 9: 'o' }, befores: { 5: 'o' } }],
];

/** @param {string[]} lines */
async function judgeLines(lines) {
  const text = ['webtrace 3', ...lines, 'end', ''].join('\n');
  return { text, report: await judgeText(text) };
}

/**
 * @param {string} text
 * @returns {Promise<Report>}
 */
async function judgeText(text) {
  const file = path.join(folder, `${++files}.trace`);
  fs.writeFileSync(file, text);
  const { report, fault } = await judge(file);
  if (!report || report.refused) throw new Error(`no report: ${fault || JSON.stringify(report?.refused)}\n${text}`);
  return report;
}

/** @param {string} name */
const hasRaces = (name) => name.endsWith('.trace') && /^race /m.test(fs.readFileSync(path.join(EXAMPLES, name.replace(/trace$/, 'report')), 'utf8'));

/**
 * An example, with places near each other, so that several races are one problem.
 * @param {string} name
 */
function exampleOf(name) {
  const text = fs.readFileSync(path.join(EXAMPLES, name), 'utf8');
  const places = Object.fromEntries(text.split('\n').map((_, k) => [k + 1, /** @type {[number, number, number]} */ ([0, 1 + (k % 7), 1])]));
  return { text, names: { ...NAMES, places } };
}

/**
 * Traces with races: the examples, then one of which another line covers a line's races, one with a section that a replay changes, and one of which the line has
 * the pattern of another race.
 * @returns {{text: string, names: Names}[]}
 */
function tracesWithRaces() {
  return [...fs.readdirSync(EXAMPLES).filter(hasRaces).map(exampleOf), ...MADE.map(([lines, facts]) => ({ text: ['webtrace 3', ...lines, 'end', ''].join('\n'), names: { ...NAMES, ...facts } }))];
}

module.exports = { judgeLines, judgeText, tracesWithRaces };
