'use strict';
// Places in the page's own text, by the text there: a line can move, and its text still identifies it. So what identifies a race stays when line numbers
// change.

const { splitLines } = require('../common/lines.js');
const { withoutDigest } = require('./build-digest.js');

/** @typedef {import('./types').Place} Place */

/** A longer line, as of a minified file, is identified by the text after the place. */
const LONGEST_LINE = 200;
const LONGEST_REST = 80;
/** So much of the text before a place says whether a statement starts there: a minified file is one line. */
const LONGEST_BEFORE = 1000;
/** In place of the text before that: no statement starts after it. */
const CUT = '(';

/** The text before a name that starts a statement; after a bracket or `else` the statement is a branch. Then that text with the sign of a count. */
const BEGIN_OF_STATEMENT = /(?:^|[;{})]|\belse|\bdo)\s*(?:[\w$]+\.)*$/;
const BEGIN_OF_COUNT = /(?:^|[;{})]|\belse|\bdo)\s*(?:\+\+|--)\s*(?:[\w$]+\.)*$/;

/** An address without its query, and without this machine as the server. Called by list/lasting.js. */
const shortAddress = (/** @type {string|undefined} */ address) => (address || '').replace(/[?#].*$/, '').replace(/^\w+:\/\/(?:localhost|127\.0\.0\.1|\[::1\])(?::\d+)?(?=\/|$)/, '');
/** An address as stable names contain it: without the digest of a build too. Called by list/lasting.js. */
const lastingAddress = (/** @type {string|undefined} */ address) => withoutDigest(shortAddress(address));
const withoutBlanks = (/** @type {string} */ text) => text.trim().replace(/\s+/g, ' ');

/** Made for the names of a trace, by thing-words.js and list/lasting.js. */
class SourceText {
  /** @param {import('./types').NamesOfTrace} names */
  constructor(names) {
    this.names = names;
    /** @type {Map<number, {[line: number]: string}>} */
    this.texts = new Map();
    /** @type {Map<string, string>} a place is that of many accesses: its text, by file, line and column */
    this.ofPlaces = new Map();
  }

  /**
   * The lines of a file by their numbers, from 1. Called by list/without-handler.js, list/patterns/assignments.js and view/excerpts.js.
   * @param {number} file
   */
  linesOf(file) {
    const known = this.texts.get(file);
    if (known) return known;
    const { text, lines = {} } = this.names.files[file] || {};
    const read = text === undefined ? lines : { ...['', ...splitLines(text)] };
    this.texts.set(file, read);
    return read;
  }

  /**
   * Whether the line of a place is too long to be its text. Called by list/sides.js and thing-words.js.
   * @param {Place} place
   */
  isLong([file, line]) {
    return (this.linesOf(file)[line] || '').length > LONGEST_LINE;
  }

  /**
   * The name of the function around a place.
   * @param {Place} place
   */
  functionAt(place) {
    return this.names.functions?.[place.join(':')] || '';
  }

  /**
   * The text of a place's line, before the place and from it on.
   * @param {Place} place
   */
  around([file, line, column]) {
    const text = this.linesOf(file)[line] || '';
    const begin = column - 1 - LONGEST_BEFORE;
    return { before: begin > 0 ? CUT + text.slice(begin, column - 1) : text.slice(0, column - 1), after: text.slice(column - 1) };
  }

  /**
   * Whether a variable is counted up or down at a place, in a statement of its own: then no code uses the value.
   * @param {Place} place
   */
  isCount(place) {
    const { before, after } = this.around(place);
    if (BEGIN_OF_STATEMENT.test(before)) return /^[\w$]+\s*(?:\+\+|--)\s*(?:[;}]|$)/.test(after) || /^(?:\+\+|--)\s*[\w$.]+\s*(?:[;}]|$)/.test(after);
    return BEGIN_OF_COUNT.test(before) && /^[\w$]+\s*(?:[;}]|$)/.test(after);
  }

  /**
   * A place by its text: its file, the function around it, and the text of its line.
   * @param {Place} place
   */
  at(place) {
    const key = place.join(':');
    let text = this.ofPlaces.get(key);
    if (text === undefined) this.ofPlaces.set(key, text = this.textAt(place));
    return text;
  }

  /**
   * The text at a place, found anew.
   * @param {Place} place
   */
  textAt(place) {
    const [file, line, column] = place;
    const text = this.linesOf(file)[line] || '';
    const rest = text.slice(column - 1, column - 1 + LONGEST_REST);
    const [word] = /^(?:[\w$]+|<[\w-]+|.)?/.exec(rest) || [];
    const told = this.isLong(place) ? withoutBlanks(rest) : `${withoutBlanks(text)} at ${word}`;
    return `${lastingAddress(this.names.files[file]?.address)} ${this.functionAt(place)} ${told}`;
  }
}

module.exports = { SourceText, shortAddress, lastingAddress };
