'use strict';
// What the recorder beside a browser complains about (warnings): in its log, and on the standard error of the suite.

const fs = require('node:fs');
const { WriteFault } = require('../common/whole-file.js');
const { BrowserFault } = require('../browser/protocol.js');
const { withoutCommands } = require('../common/shown.js');

/** `launch` opens it: it is the suite's standard error until the browser ends. */
const SUITE = 5;
/** @type {Set<string>} */
const said = new Set();

/**
 * Writes a line to a descriptor, if that takes it.
 * @param {number} descriptor
 * @param {string} line
 */
function write(descriptor, line) {
  try {
    fs.writeSync(descriptor, `${line}\n`);
  } catch {
    // a full disk, or a browser that has ended: the other one has the line
  }
}

/**
 * Reports a fault once. The log is standard output. Called by browser-recorder.js and main.js.
 * @param {string} text
 */
function complain(text) {
  if (said.has(text)) return;
  said.add(text);
  const line = `er_browser: ${text.split('\n').map(withoutCommands).join('\n')}`;
  write(process.stdout.fd, line);
  write(SUITE, line);
}

/**
 * A fault in words: with its stack if it is a bug. Called by browser-recorder.js and main.js.
 * @param {unknown} fault
 */
function faultInWords(fault) {
  if (!(fault instanceof Error)) return String(fault);
  return fault instanceof WriteFault || fault instanceof BrowserFault ? fault.message : fault.stack || fault.message;
}

module.exports = { complain, faultInWords };
