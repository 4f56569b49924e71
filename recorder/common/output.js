'use strict';
// What the commands print for a reader: every line goes through here, so that no text of a page or a server controls the terminal. Standard output and standard
// error, colors, and no control characters (escape sequences) of others.

const { withoutCommands } = require('./shown.js');

/** @type {Set<string>} */
const printed = new Set();

/** @param {unknown} text of one or several lines */
const linesOf = (text) => String(text).split('\n').map(withoutCommands).join('\n');

/**
 * Prints to standard output.
 * @param {unknown} text
 */
const print = (text) => console.log(linesOf(text));

/** What sets a color of a terminal. */
const STYLE = /(\u001b\[[0-9;]*m)/;

/**
 * Prints a line with colors to standard output. Called by list/outputs.js.
 * @param {string} line
 */
const printStyled = (line) => console.log(line.split(STYLE).map((part, k) => (k % 2 ? part : withoutCommands(part))).join(''));

/**
 * Prints to standard error.
 * @param {unknown} text
 */
const printError = (text) => console.error(linesOf(text));

/**
 * Prints a text to standard error, once for each process. Called by browser/attached.js, browser/chromium.js and recording/recorder.js.
 * @param {string} text
 */
function printErrorOnce(text) {
  if (printed.has(text)) return;
  printed.add(text);
  printError(text);
}

module.exports = { print, printError, printErrorOnce, printStyled };
