'use strict';
// The lines of source around places, each line once. Source code with line numbers.

const { withoutCommands } = require('../common/shown.js');

const LINES_AROUND = 2; // client/source.js draws as many
/** Characters of a line that are shown: a longer (minified) one is cut around the column. */
const LONGEST_LINE = 240;

/** @typedef {import('../list/types').Place} Place */

/**
 * A line as a reader gets it: no sign in it turns its direction, or ends it. Tabs stay.
 * @param {string} text
 */
const plain = (text) => text.replace(/\r$/, '').split('\t').map(withoutCommands).join('\t');

/**
 * A line of source, cut around a column if it is long.
 * @param {string} text
 * @param {number} column
 */
function cutLine(text, column) {
  const from = text.length <= LONGEST_LINE ? 0 : Math.max(0, column - LONGEST_LINE / 2);
  const to = text.length <= LONGEST_LINE ? text.length : from + LONGEST_LINE;
  const before = `${from > 0 ? '…' : ''}${plain(text.slice(from, column - 1))}`;
  return { text: `${before}${plain(text.slice(column - 1, to))}${to < text.length ? '…' : ''}`, column: before.length + 1 };
}

/** A part of the view's `Model`. */
class Excerpts {
  /** @param {import('../races/words.js').Words} words */
  constructor(words) {
    this.words = words;
    /** @type {string[]} */
    this.files = [];
    /** @type {Map<number, number>} the index of a file in `files` */
    this.indexOf = new Map();
    /** @type {import('./types').ViewModel['lines']} */
    this.lines = {};
    /** @type {import('./types').ViewModel['excerpts']} */
    this.excerpts = {};
  }

  /**
   * Adds the lines around a place. Called by model.js.
   * @param {Place|null} place
   * @returns {{key: string|null, added: unknown[]}} the key of the excerpt, and what it adds to the model
   */
  add(place) {
    if (!place) return { key: null, added: [] };
    const key = place.join(':');
    if (this.excerpts[key]) return { key, added: [] };
    const [file, line, column] = place;
    const texts = this.words.sources.linesOf(file);
    const index = this.fileOf(file);
    const added = [];
    for (let k = Math.max(1, line - LINES_AROUND); k <= line + LINES_AROUND; k++) {
      if (texts[k] === undefined || this.lines[index][k] !== undefined) continue;
      this.lines[index][k] = cutLine(texts[k], 1).text;
      added.push(this.lines[index][k]);
    }
    this.excerpts[key] = { file: index, line, ...this.placeOfText(texts[line], column) };
    return { key, added: [...added, key, this.excerpts[key]] };
  }

  /**
   * Where the word of a place is in its line as it is shown: a long line is cut around it.
   * @param {string|undefined} text
   * @param {number} column
   */
  placeOfText(text, column) {
    if (text === undefined) return { column: 0 };
    const cut = cutLine(text, column);
    return text.length > LONGEST_LINE ? { column: cut.column, own: cut.text } : { column: cut.column };
  }

  /**
   * The index of a file in the view.
   * @param {number} file
   */
  fileOf(file) {
    let index = this.indexOf.get(file);
    if (index === undefined) {
      index = this.files.push(this.words.fileName(file)) - 1;
      this.indexOf.set(file, index);
      this.lines[index] = {};
    }
    return index;
  }
}

module.exports = { Excerpts, cutLine };
