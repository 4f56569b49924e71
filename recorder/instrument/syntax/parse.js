'use strict';
// Reads JavaScript by acorn: the tree of a text, or its parse error, for which it stays as it is. A SyntaxError, or syntax that is too new, means: no marks.

const acorn = require('/usr/share/nodejs/acorn');
const { newerSyntax } = require('./newer-syntax.js');

/**
 * @typedef {import('./types').Fault} Fault
 * @typedef {import('./newer-syntax').AcornParser} AcornParser
 */

/** Which regular expressions there are is the browser's to say: it knows newer ones. */
const anyPatterns = (/** @type {AcornParser} */ Base) => class extends Base {
  validateRegExpFlags() {}
  validateRegExpPattern() {}
};

/** @type {AcornParser} */
const Parser = acorn.Parser.extend(/** @type {AcornParser} */ (newerSyntax), /** @type {AcornParser} */ (anyPatterns));

/** How a text starts that is a page or data, and how acorn's messages end. */
const MARKUP = /^\s*<(?!!--)/;
const DATA = /^\s*[{[]/;
const PLACE = / \(\d+:\d+\)$/;
const START = { offset: 0, line: 1, column: 1 };

/**
 * Whether a text is no JavaScript but a page, or JSON, as servers send for a script that they do not find.
 * @param {string} code
 */
function isOther(code) {
  if (MARKUP.test(code)) return true;
  if (!DATA.test(code)) return false;
  try {
    JSON.parse(code);
    return true;
  } catch {
    return false; // no JSON either
  }
}

/**
 * Why a text is not marked. Called by instrument/instrument.js.
 * @param {unknown} error of the parser or of the walk
 * @param {string} code
 * @returns {Fault|null} null for an error of the recorder
 */
function faultOf(error, code) {
  if (error instanceof RangeError && /call stack/.test(error.message)) return { ...START, kind: 'depth', message: 'the stack is too small for it' };
  if (!(error instanceof SyntaxError)) return null;
  const { pos = 0, loc = { line: 1, column: 0 } } = /** @type {{pos?: number, loc?: {line: number, column: number}}} */ (error);
  return { kind: isOther(code) ? 'other' : 'syntax', message: error.message.replace(PLACE, ''), offset: pos, line: loc.line, column: loc.column + 1 };
}

/**
 * The tree of a text, with what its kind of code may contain: a handler may return, a module has imports.
 * Called by instrument/instrument.js.
 * @param {string} code
 * @param {import('./types').KindOfCode} kind
 * @returns {import('./types').Program} fails with a SyntaxError that has the place
 */
function parse(code, kind) {
  return Parser.parse(code, {
    ecmaVersion: 'latest',
    sourceType: kind === 'module' ? 'module' : 'script',
    allowReturnOutsideFunction: kind === 'handler',
    allowHashBang: true,
  });
}

module.exports = { parse, faultOf };
