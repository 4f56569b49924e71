// What the recorder does with texts and patterns. Pages put functions of their own in the place of those that texts and patterns have, so the ones
// are called that were taken before.

import { Number, String, apply } from './taken.js';

const { charCodeAt, endsWith, indexOf, slice, toLowerCase, toUpperCase, trimEnd } = String.prototype;
const { exec } = /x/;
const numberText = Number.prototype.toString;

/**
 * Where a pattern is in a text, with its groups. Called by page/accesses/lookups.js, page/log/spelling.js and page/log/stack.js.
 * @param {RegExp} pattern
 * @param {string} text
 * @returns {RegExpExecArray|null}
 */
const found = (pattern, text) => apply(exec, pattern, [text]);

/**
 * Whether a text has what a pattern says.
 * @param {RegExp} pattern
 * @param {unknown} text the pattern gets it as a text
 */
const fits = (pattern, text) => apply(exec, pattern, [/** @type {string} */ (text)]) !== null;

/**
 * @param {string} text
 * @param {number} start
 * @param {number} [end]
 * @returns {string}
 */
const sliceOf = (text, start, end) => apply(slice, text, [start, end]);

/**
 * Called by page/accesses/lookups.js and page/scripts/modules.js.
 * @param {string} text
 * @param {string} part
 * @param {number} [from]
 * @returns {number} -1 if it is not there
 */
const indexIn = (text, part, from = 0) => apply(indexOf, text, [part, from]);

/**
 * Called by page/document/attributes.js and page/events/handlers.js.
 * @param {string} text
 * @param {string} end
 * @returns {boolean}
 */
const hasEnd = (text, end) => apply(endsWith, text, [end]);

/**
 * Called by page/document/attributes.js and page/objects/trees.js.
 * @param {string} text
 * @returns {string}
 */
const lowerCase = (text) => apply(toLowerCase, text, []);

/**
 * Called by page/objects/style-names.js.
 * @param {string} text
 * @returns {string}
 */
const upperCase = (text) => apply(toUpperCase, text, []);

/**
 * Called by page/log/stack.js.
 * @param {string} text
 * @returns {string}
 */
const withoutLastBlanks = (text) => apply(trimEnd, text, []);

/**
 * Called by page/log/values.js.
 * @param {string} text
 * @param {number} at
 * @returns {number}
 */
const codeAt = (text, at) => apply(charCodeAt, text, [at]);

/**
 * Called by page/log/spelling.js and page/log/values.js.
 * @param {number} number
 * @param {number} base
 * @returns {string}
 */
const digitsOf = (number, base) => apply(numberText, number, [base]);

/** @type {import('../types').PatternTools} */
const PATTERNS = { find: found, slice: sliceOf };

/**
 * An address without its fragment: requests and files have none.
 * @param {string} address
 */
function withoutFragment(address) {
  const at = indexIn(address, '#');
  return at < 0 ? address : sliceOf(address, 0, at);
}

/**
 * The parts of a text between blanks. Called by page/helpers/idle.js.
 * @param {string} text
 */
function words(text) {
  /** @type {string[]} */
  const list = [];
  for (let start = 0; ;) {
    const end = indexIn(text, ' ', start);
    list[list.length] = end < 0 ? sliceOf(text, start) : sliceOf(text, start, end);
    if (end < 0) return list;
    start = end + 1;
  }
}

export { PATTERNS, codeAt, digitsOf, fits, found, hasEnd, indexIn, lowerCase, sliceOf, upperCase, withoutFragment, withoutLastBlanks, words };
