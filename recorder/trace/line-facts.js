'use strict';
// What the log says of single accesses, by the line of each in the trace: their values, and what kind of read or write each is.

/**
 * @template T
 * @typedef {{[line: string]: T}} ByLine
 */

/** A part of `Names`. */
class LineFacts {
  constructor() {
    /**
     * What an access found or wrote (page/log/values.js).
     * @type {ByLine<string>}
     */
    this.values = {};
    /**
     * What was there before a write, if that is known.
     * @type {ByLine<string>}
     */
    this.befores = {};
    /**
     * The writes that count a variable up or down, with a value that nobody uses.
     * @type {ByLine<true>}
     */
    this.counts = {};
    /**
     * Reads that are writes of the value that was there.
     * @type {ByLine<true>}
     */
    this.kept = {};
    /**
     * Writes of fields in the event of a key: the `input` event of the key does them later.
     * @type {ByLine<true>}
     */
    this.typed = {};
    /**
     * By the number of a write: what it wrote.
     * @type {Map<string, string>}
     */
    this.written = new Map();
  }

  /**
   * Takes what is known of an access.
   * @param {number} line
   * @param {import('./spelling.js').SpelledEntry} access
   */
  take(line, { found, isKept, isTyped }) {
    if (found) this.#takeValue(line, found);
    if (isKept) this.kept[line] = true;
    if (isTyped) this.typed[line] = true;
  }

  /**
   * A write is known by its number, if what it wrote comes after it; or by what it wrote, and what was there before.
   * @param {number} line
   * @param {string} found
   */
  #takeValue(line, found) {
    const [value = '', before] = found[0] === '=' ? [this.written.get(found.slice(1))] : found.split('<');
    if (value.endsWith('+')) this.counts[line] = true;
    if (value) this.values[line] = value.replace(/\+$/, '');
    if (before && before !== '?') this.befores[line] = before;
  }

  /** The lists of OUT.names.json. Called by replay/found/compare.js and names.js. */
  lists() {
    const { values, befores, counts, kept, typed } = this;
    return { values, befores, counts, kept, typed };
  }
}

module.exports = { LineFacts };
