'use strict';
// The lines of an evaluation: one of JSON for each page that is done, appended as it comes. A later line of a page takes the place of an earlier one.

const fs = require('node:fs');

/**
 * @typedef {import('./types').DoneLine} DoneLine
 * @typedef {import('./types').Line} Line
 */

/**
 * The last line of each page; what was cut off by a fall of the machine is left out.
 * @param {string} file
 * @returns {Line[]}
 */
function readLines(file) {
  if (!fs.existsSync(file)) return [];
  /** @type {Map<string, Line>} */
  const lines = new Map();
  for (const text of fs.readFileSync(file, 'utf8').split('\n').filter(Boolean)) {
    const line = parsed(text);
    if (line) lines.set(line.page, line);
  }
  return [...lines.values()];
}

/**
 * @param {string} text
 * @returns {Line|null}
 */
function parsed(text) {
  try {
    return JSON.parse(text);
  } catch {
    // the line was cut off
    return null;
  }
}

/**
 * @template {{page: string}} T
 * @param {string} file
 * @param {T} line
 */
function appendLine(file, line) {
  const isCut = fs.existsSync(file) && !/(^|\n)$/.test(fs.readFileSync(file, 'utf8'));
  fs.appendFileSync(file, `${isCut ? '\n' : ''}${JSON.stringify(line)}\n`);
}

/**
 * Whether the evaluation of a page did not fail.
 * @param {Line} line
 * @returns {line is DoneLine}
 */
const isDone = (line) => !line.failure;

/**
 * Whether no more wanted to run, before a page and after it, than there are processors.
 * @param {Pick<Line, 'machine'>} line
 */
const isQuiet = ({ machine: { loads, processors } }) => Math.max(...loads) <= processors;

/** Times are worth something where so much of the processors' time was left meanwhile: two browsers in parallel leave a sixth of four. */
const LEAST_IDLE = 0.1;
/**
 * Whether nothing had to wait while a page was loaded for its times.
 * @param {{idle?: number}} loads
 */
const areTimesGood = ({ idle }) => idle !== undefined && idle >= LEAST_IDLE;

module.exports = { readLines, appendLine, isDone, isQuiet, areTimesGood };
