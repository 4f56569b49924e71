'use strict';
// The lines of the applications: one of JSON for each, appended as it comes. A later line of an application takes the place of an earlier one.

const fs = require('node:fs');
const path = require('node:path');
const { APART, IDLE } = require('../../list/patterns/table.js');

/** @typedef {import('./types').Line} Line */

/** Those of the tables, so that one application can be recorded again. */
const STORED = path.join(__dirname, 'applications.jsonl');

/**
 * Sections of the list that had other names in stored lines.
 * @type {[former: string, name: string][]}
 */
const FORMER = [['another input, not another order', APART], ['late handlers that changed nothing recorded', IDLE]];

/**
 * @param {string} text
 * @returns {Line[]}
 */
function parsed(text) {
  try {
    return [JSON.parse(FORMER.reduce((line, [former, name]) => line.replaceAll(`"${former}"`, `"${name}"`), text))];
  } catch {
    // the line was cut off
    return [];
  }
}

/**
 * The last line of each application, in alphabetical order.
 * @param {string[]} files  the newest last
 * @returns {Line[]}
 */
function linesOf(...files) {
  const lines = files.filter((file) => fs.existsSync(file)).flatMap((file) => fs.readFileSync(file, 'utf8').split('\n').filter(Boolean).flatMap(parsed));
  return [...new Map(lines.map((line) => [line.application, line])).values()].sort((a, b) => (a.application < b.application ? -1 : 1));
}

/**
 * @param {string} file
 * @param {Line} line
 */
function appendLine(file, line) {
  const isCut = fs.existsSync(file) && !/(^|\n)$/.test(fs.readFileSync(file, 'utf8'));
  fs.appendFileSync(file, `${isCut ? '\n' : ''}${JSON.stringify(line)}\n`);
}

/** @param {Line[]} lines */
const textOf = (lines) => lines.map((line) => `${JSON.stringify(line)}\n`).join('');

module.exports = { linesOf, appendLine, textOf, STORED };
