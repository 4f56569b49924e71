'use strict';
// ER_DEBUG=protocol,page: prints to standard error what goes to and comes from the browser (messages of the DevTools protocol), and the lines of the page's
// log.

const { printError } = require('./output.js');

/** @typedef {'protocol'|'page'} DebugKind */

/** A message may have a whole script in it. */
const LONGEST = 400;
const wanted = new Set((process.env.ER_DEBUG || '').split(',').map((kind) => kind.trim()));

/** @param {string} text */
const shortened = (text) => (text.length > LONGEST ? `${text.slice(0, LONGEST)}… (${text.length} characters)` : text);

/**
 * Called by browser/protocol.js and trace/intake.js.
 * @param {DebugKind} kind
 * @param {string} direction
 * @param {string} text
 */
function debug(kind, direction, text) {
  if (wanted.has(kind)) printError(`er:${kind} ${direction} ${shortened(text)}`);
}

module.exports = { debug };
