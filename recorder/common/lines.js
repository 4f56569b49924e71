'use strict';
// Lines and columns of a text. The line and column of an offset, and the offset of a line and column.

/** As a reader counts them, and the parser of a page. */
const LINE_END = /\r\n|[\n\r]/g;
/** As JavaScript counts them. */
const LINE_END_OF_SCRIPT = /\r\n|[\n\r\u2028\u2029]/g;

/**
 * The index of the last entry of a rising list that is not greater than the value. Called by instrument/edits.js.
 * @param {number[]} list
 * @param {number} value
 */
function lastNotGreater(list, value) {
  let low = 0;
  let high = list.length - 1;
  while (low < high) {
    const middle = (low + high + 1) >> 1;
    if (list[middle] <= value) low = middle;
    else high = middle - 1;
  }
  return low;
}

/** Lines and columns of a text, both from 1. */
class Lines {
  /**
   * @param {string} text
   * @param {RegExp} [ends] what ends a line
   */
  constructor(text, ends = LINE_END) {
    this.starts = [0];
    for (const { 0: end, index } of text.matchAll(ends)) this.starts.push(/** @type {number} */ (index) + end.length);
    this.length = text.length;
  }

  /**
   * The line and the column of an offset, from 1 on.
   * @param {number} offset
   */
  placeOf(offset) {
    const line = lastNotGreater(this.starts, offset);
    return { line: line + 1, column: offset - this.starts[line] + 1 };
  }

  /**
   * The offset of a line and a column; the end of the text if it has no such line.
   * @param {number} line
   * @param {number} column
   */
  offsetOf(line, column) {
    const start = this.starts[Math.min(line, this.starts.length) - 1] || 0;
    return Math.min(start + column - 1, this.length);
  }
}

/**
 * The lines of a text, as a reader counts them. Called by races/source-text.js and trace/named-files.js.
 * @param {string} text
 */
const splitLines = (text) => text.split(LINE_END);

module.exports = { Lines, splitLines, lastNotGreater, LINE_END, LINE_END_OF_SCRIPT };
