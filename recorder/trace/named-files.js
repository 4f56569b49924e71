'use strict';
// A file as OUT.names.json has it: its address, and as much of its text as a reader may want: the size of a long one is limited.

const { fileAddress } = require('../browser/folder.js');
const { splitLines } = require('../common/lines.js');

/** @typedef {{address: string, isLibrary?: boolean, isPart?: boolean, text?: string, lines?: {[line: string]: string}}} NamedFile */

/** Files that are longer than this keep only the lines around their places. */
const LONGEST_TEXT = 400000;
const LONGEST_LINE = 20000;
const LINES_AROUND = 3;

/**
 * The lines of a long text that a reader may want, by their numbers.
 * @param {string} text
 * @param {Set<number>} numbers
 */
function linesAround(text, numbers) {
  const lines = splitLines(text);
  /** @type {{[line: string]: string}} */
  const kept = {};
  for (const number of numbers) {
    for (let k = Math.max(1, number - LINES_AROUND); k <= Math.min(lines.length, number + LINES_AROUND); k++) kept[k] = lines[k - 1].slice(0, LONGEST_LINE);
  }
  return kept;
}

/**
 * A file of OUT.names.json, with its whole text if that is short, else with the lines around places. Called by names.js.
 * @param {{address: string, text: string, library?: string}} file `library` is set if it stands for a part of a file
 * @param {Set<number>|undefined} lines those that have a place; undefined if there is none
 * @param {boolean} isLibrary
 * @returns {NamedFile}
 */
function namedFile({ address: given, text, library }, lines, isLibrary) {
  const address = fileAddress(given);
  if (!lines) return { address };
  const known = { address, ...isLibrary && { isLibrary }, ...library && { isPart: true } };
  return text.length <= LONGEST_TEXT ? { ...known, text } : { ...known, lines: linesAround(text, lines) };
}

module.exports = { namedFile };
