'use strict';
// Where marks begin and end in a text, and the text without them.

/**
 * @typedef {{begin: string, end: string, afterSlash: string}} Delimiters
 * @typedef {{indexOf: (text: string, part: string, from: number) => number, slice: (text: string, start: number, end?: number) => string}} TextTools
 */

/**
 * `inBlanks`: two characters that count as blanks, and that hardly any script has. `inComments`, for a script that has one of them: two comments. After a
 * `/` the mark's own `/` would begin another comment, so a blank is between.
 */
const MARKS = {
  inBlanks: { begin: '\v', end: '\f', afterSlash: '' },
  inComments: { begin: '/*\v\f<*/', end: '/*\v\f>*/', afterSlash: '\u2005' },
};

/**
 * What the marks of a text are between. Called by instrument/insert/inserter.js.
 * @param {string} text
 * @returns {Delimiters}
 */
const delimitersOf = (text) => (/[\v\f]/.test(text) ? MARKS.inComments : MARKS.inBlanks);

/**
 * A text as it was. The text of a function without a block may end inside of a mark that began in it, so a mark that does not end is cut off if a whole one
 * is before it. The page gets this function as a text (recording/page-script.js): it uses nothing but its parameters, since a page may replace what
 * texts and patterns can do.
 * @param {string} text
 * @param {typeof MARKS} marks
 * @param {TextTools} tools
 * @returns {string}
 */
function textWithoutMarks(text, { inBlanks, inComments }, { indexOf, slice }) {
  const { begin, end, afterSlash } = indexOf(text, inComments.begin, 0) < 0 ? inBlanks : inComments;
  let kept = '';
  let done = 0;
  for (;;) {
    const start = indexOf(text, begin, done);
    if (start < 0) return kept + slice(text, done);
    const close = indexOf(text, end, start + begin.length);
    if (close < 0 && done === 0) return text;
    kept += slice(text, done, afterSlash && text[start - 1] === afterSlash ? start - 1 : start);
    if (close < 0) return kept;
    done = close + end.length;
  }
}

const TOOLS = {
  /** @type {TextTools['indexOf']} */
  indexOf: (text, part, from) => text.indexOf(part, from),
  /** @type {TextTools['slice']} */
  slice: (text, start, end) => text.slice(start, end),
};

/** @param {string} text */
const withoutMarks = (text) => textWithoutMarks(text, MARKS, TOOLS);

module.exports = { MARKS, delimitersOf, textWithoutMarks, withoutMarks };
