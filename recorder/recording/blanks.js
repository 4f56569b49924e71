'use strict';
// Leaves out of code what the browser does not need: comments, line breaks and other blanks. The browser keeps the text of a script in the page's heap, and
// four bytes for each line, as long as the page is open. It is a small minifier, for code with a semicolon at the end of each statement; names stay.

const STRING = String.raw`'(?:[^'\\\n]|\\.)*'|"(?:[^"\\\n]|\\.)*"`;
/** An expression in a template can have braces and templates inside, but no further ones in these. */
const TEMPLATE = '`(?:[^`\\\\$]|\\\\[^]|\\$(?!\\{)|\\$\\{(?:[^`{}]|\\{[^`{}]*\\}|`(?:[^`\\\\]|\\\\[^])*`)*\\})*`';
/** After these signs a slash begins a regular expression, and after others it divides. */
const PATTERN = String.raw`(?<=(?:[(,=:[!&|?{;>]|\breturn)\s*)\/(?![*/])(?:[^/\\[\n]|\\.|\[(?:[^\]\\\n]|\\.)*\])+\/`;
const BLANKS = String.raw`(?:\s|\/\/.*|\/\*[^]*?\*\/)+`;
const TOKENS = new RegExp(`(${STRING}|${TEMPLATE}|${PATTERN})|${BLANKS}`, 'g');
/** Two signs that would be one token, or another one, without a blank between them. */
const JOIN = /^(?:[\w$#][\w$#]|\+\+|--|\/\/|\/\*)$/;

/**
 * A script without blanks and comments between its tokens. Called by page-script.js.
 * @param {string} code
 * @returns {string} code of the same tokens, in one line
 */
function withoutBlanks(code) {
  return code.replace(TOKENS, (all, kept, at) => {
    if (kept) return kept;
    return JOIN.test(`${code[at - 1]}${code[at + all.length]}`) ? ' ' : '';
  });
}

module.exports = { withoutBlanks };
