'use strict';
// Analyzes a trace that can be too large: the locations with the most pairs are left out of it until it is not refused for its size. The program refuses too
// many pairs.

const fs = require('node:fs');
const { jsonText } = require('../common/shown.js');
const { writeWhole } = require('../common/whole-file.js');
const { digestOf } = require('../common/digest.js');
const { beyond, isAt, sizesOf, sum } = require('../trace/limits.js');
const { judge } = require('./program.js');

const TOO_MUCH = /^too-many-(?:pairs|races|classes)$/;
/** The share of the pairs that stay at each further try. */
const KEPT = 0.75;
/** The members of OUT.names.json whose keys are numbers of lines. */
const BY_LINE = ['places', 'ways', 'callers', 'values', 'befores', 'counts', 'kept', 'typed'];

const besides = (/** @type {string} */ traceFile) => `${traceFile.replace(/\.trace$/, '')}.names.json`;

/**
 * The content of OUT.names.json, whose members this file passes on without a look into them.
 * @typedef {{[member: string]: any, leftOut?: LeftOut[]}} AnyNames
 */
/** @typedef {import('./types').LeftOut} LeftOut */

/**
 * The names for a trace that has lost some lines.
 * @param {AnyNames} names
 * @param {Map<string, number>} numbers the new number of each line that stays
 */
function renumbered(names, numbers) {
  const changed = { ...names };
  for (const list of BY_LINE.filter((one) => names[one])) {
    changed[list] = Object.fromEntries(Object.entries(names[list]).filter(([line]) => numbers.has(line)).map(([line, known]) => [numbers.get(line), known]));
  }
  return changed;
}

/**
 * Writes a trace and its names without the accesses to some locations.
 * @param {string} traceFile
 * @param {string[]} lines
 * @param {LeftOut[]} gone
 */
function writeWithout(traceFile, lines, gone) {
  const locations = new Set(gone.map(({ location }) => location));
  /** @type {Map<string, number>} */
  const numbers = new Map();
  const kept = lines.filter((line, k) => {
    const stays = !isAt(line, locations);
    if (stays) numbers.set(String(k + 1), numbers.size + 1);
    return stays;
  });
  const namesFile = besides(traceFile);
  /** @type {AnyNames} */
  const names = renumbered(JSON.parse(fs.readFileSync(namesFile, 'utf8')), numbers);
  names.leftOut = [...names.leftOut || [], ...gone];
  const text = `${kept.join('\n')}\n`;
  if (names.recording) names.recording = { ...names.recording, digest: digestOf(text) };
  writeWhole(namesFile, `${jsonText(names, 1)}\n`);
  writeWhole(traceFile, text);
}

/**
 * Analyzes a trace. If the analyzer refuses it for its size, the trace and its names are written again without the locations that have the most pairs, one
 * more at each try. A trace without names next to it was not recorded here, and stays as it is.
 * @param {string} traceFile
 * @returns {Promise<import('./types').Judged & {leftOut: LeftOut[]}>}
 */
async function judgeWithin(traceFile) {
  /** @type {LeftOut[]} */
  const leftOut = [];
  for (;;) {
    const answer = await judge(traceFile);
    const isTooMuch = answer.report?.refused && TOO_MUCH.test(answer.report.refused.cause);
    if (!isTooMuch || !fs.existsSync(besides(traceFile))) return { ...answer, leftOut };
    const lines = fs.readFileSync(traceFile, 'utf8').replace(/\n$/, '').split('\n');
    const pairs = sum(sizesOf(lines), 'pairs');
    const gone = beyond(lines, { mostPairs: Math.floor(pairs * KEPT) });
    if (!gone.length) return { ...answer, leftOut };
    leftOut.push(...gone);
    writeWithout(traceFile, lines, gone);
  }
}

module.exports = { judgeWithin };
