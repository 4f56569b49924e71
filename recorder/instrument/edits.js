'use strict';
// Changes of a text, each at a place of the original, and the way back: which original place a place of the changed text stands for. A line and column of the
// instrumented copy become those of the original code.

const { Lines, lastNotGreater, LINE_END, LINE_END_OF_SCRIPT } = require('../common/lines.js');

/** @typedef {import('./syntax/types').Edit} Edit */

/**
 * An edited text. Edits are given by their place in the original; those of one place keep the order in which they were given. Made by driven/load-sources.js,
 * page.js and texts/source.js.
 */
class EditedText {
  /**
   * @param {string} original
   * @param {Edit[]} edits
   * @param {'script'|'page'} [kind] how the browser counts the lines of the changed text
   */
  constructor(original, edits, kind = 'script') {
    this.original = original;
    this.kind = kind;
    this.changedStarts = [0];
    this.originalStarts = [0];
    this.text = this.assemble([...edits].sort((a, b) => a.start - b.start));
    /** @type {Lines|null} */
    this.changedLines = null;
    /** @type {Lines|null} */
    this.originalLines = null;
  }

  /**
   * Puts the changed text together, and notes for each piece where it starts in both texts. The edits are in ascending order.
   * @param {Edit[]} edits
   */
  assemble(edits) {
    /** @type {string[]} */
    const pieces = [];
    let length = 0;
    let done = 0;
    const add = (/** @type {string} */ piece, /** @type {number} */ next) => {
      pieces.push(piece);
      length += piece.length;
      this.changedStarts.push(length);
      this.originalStarts.push(next);
    };
    for (const { start, end, insert } of edits) {
      if (start < done) continue; // inside a text that an earlier edit replaced
      add(this.original.slice(done, start), start);
      add(insert, end);
      done = end;
    }
    pieces.push(this.original.slice(done));
    return pieces.join('');
  }

  /**
   * The original offset of an offset in the changed text; what an edit inserted stands for the place of the edit.
   * @param {number} changed
   */
  originalOffset(changed) {
    const piece = lastNotGreater(this.changedStarts, changed);
    const next = piece + 1 < this.originalStarts.length ? this.originalStarts[piece + 1] : this.original.length;
    return Math.min(this.originalStarts[piece] + changed - this.changedStarts[piece], next);
  }

  /**
   * The original offset of a line and column that the browser reports of the changed text. Called by texts/sources.js.
   * @param {number} line
   * @param {number} column
   */
  originalOffsetAt(line, column) {
    return this.originalOffset(this.linesOfChanged().offsetOf(line, column));
  }

  /**
   * The offsets in the changed text that stand for an original offset, as the first and the last one.
   * @param {number} original
   * @returns {[first: number, last: number]}
   */
  changedOffsets(original) {
    const before = (/** @type {number} */ limit) => {
      let [low, high] = [0, this.text.length + 1];
      while (low < high) {
        const middle = (low + high) >> 1;
        if (this.originalOffset(middle) < limit) low = middle + 1;
        else high = middle;
      }
      return low;
    };
    const first = before(original);
    return [first, Math.max(first, before(original + 1) - 1)];
  }

  /**
   * Where the browser reports an original place in the changed text: its line, and the first and the last column. Called by driven/asked.js.
   * @param {number} line
   * @param {number} column
   */
  changedPlaces(line, column) {
    this.originalLines = this.originalLines || new Lines(this.original);
    const [first, last] = this.changedOffsets(this.originalLines.offsetOf(line, column));
    const lines = this.linesOfChanged();
    const [from, to] = [lines.placeOf(first), lines.placeOf(last)];
    return { line: from.line, from: from.column, to: to.line === from.line ? to.column : Infinity };
  }

  /** The lines of the changed text, which are read when a place is first looked for. */
  linesOfChanged() {
    this.changedLines = this.changedLines || new Lines(this.text, this.kind === 'script' ? LINE_END_OF_SCRIPT : LINE_END);
    return this.changedLines;
  }

  /**
   * The original line and column of a line and column that the browser reports of the changed text. Called by driven/asked.js and texts/sources.js.
   * @param {number} line
   * @param {number} column
   */
  originalPlace(line, column) {
    this.originalLines = this.originalLines || new Lines(this.original);
    return this.originalLines.placeOf(this.originalOffsetAt(line, column));
  }
}

module.exports = { EditedText };
