'use strict';
// The bugs of confirm/, and where the lists have them.

const fs = require('node:fs');
const path = require('node:path');
const { tableOf, told } = require('../corpus/tables.js');

/**
 * @typedef {import('./types').BugLine} BugLine
 * @typedef {import('./types').Confirmed} Confirmed
 * @typedef {import('./types').DoneLine} DoneLine
 * @typedef {{part: string, summary: string}} Shown
 */

const FOLDER = path.join(__dirname, 'confirm');
const HELPER = 'plain-page.js';
const LONGEST = 300;
const HEAD = ['Bug', 'What a user loses', 'Its line in the list', 'Place', 'Section, and its number'];

/** Their names. */
const bugNames = () => fs.readdirSync(FOLDER).filter((file) => file !== HELPER).map((file) => path.basename(file, '.js')).sort();

/**
 * @param {string} name
 * @returns {Confirmed}
 */
const bugOf = (name) => require(path.join(FOLDER, `${name}.js`));

/**
 * The first line of a list that shows a bug, with its place, and the number of its section, from 1; null if no line does.
 * @param {string} name
 * @param {Shown[]} lines
 * @returns {BugLine|null}
 */
function lineOfBug(name, lines) {
  const k = lines.findIndex(({ summary }) => bugOf(name).line.test(summary));
  if (k < 0) return null;
  const { part, summary } = lines[k];
  const parts = [...new Set(lines.map((one) => one.part))];
  return { summary, place: k + 1, lines: lines.length, part, section: parts.indexOf(part) + 1, sections: parts.length };
}

/**
 * Where each list of an application has its bugs.
 * @param {string} application
 * @param {({lines: Shown[]}|null)[]} lists
 * @returns {{[bug: string]: (BugLine|null)[]}}
 */
function bugsIn(application, lists) {
  const names = bugNames().filter((name) => bugOf(name).application === application);
  return Object.fromEntries(names.map((name) => [name, lists.map((list) => list && lineOfBug(name, list.lines))]));
}

/**
 * The lines of a bug in the lists of its application.
 * @param {string} name
 * @param {DoneLine[]} done
 */
const linesOfBug = (name, done) => done.find(({ application }) => application === bugOf(name).application)?.bugs?.[name] || [];

/**
 * @param {string} name
 * @param {DoneLine[]} done
 */
function rowOf(name, done) {
  const lines = linesOfBug(name, done);
  const cells = [
    lines.map((line) => (line ? `${line.place} of ${line.lines}` : 'none')),
    lines.map((line) => (line ? `${line.part}: ${line.section} of ${line.sections}` : 'none')),
  ].map((texts) => [...new Set(texts)].join('; '));
  return [name, told(bugOf(name).loses, LONGEST), told(lines.find(Boolean)?.summary || 'none'), ...cells];
}

/**
 * The bugs as a table, each with its line in both lists of its application, once if they say one thing.
 * @param {DoneLine[]} done
 */
const bugTable = (done) => tableOf(HEAD, bugNames().map((name) => rowOf(name, done)));

module.exports = { bugNames, bugOf, bugsIn, bugTable, linesOfBug };
