'use strict';
// The scripts and handler attributes that stay as they are, since the recorder cannot read them: why, and where. It is reported which could not be parsed, with
// the reason, the file and the line.

const { shown } = require('../common/shown.js');

/**
 * @typedef {import('../instrument/syntax/types').Fault} Fault
 * @typedef {{address: string, line: number, column: number}} Place
 * @typedef {Place & {what: string, message: string}} Unparsed
 * @typedef {'scripts'|'handler attributes'|'javascript: addresses'} Unmarkable
 */

/** What is said of each kind of fault. */
const WORDS = { other: 'that are no JavaScript', syntax: 'whose syntax is not known', depth: 'that are nested too deeply' };
/** So many places of a kind are in its line. */
const MOST_PLACES = 5;

/** A part of `Sources`. */
class Unmarked {
  constructor() {
    /** @type {Unparsed[]} */
    this.list = [];
  }

  /**
   * A script or a handler attribute stays as it is. Called by source.js.
   * @param {Unmarkable} what
   * @param {Fault} fault
   * @param {Place} place
   */
  add(what, { kind, message }, { address, line, column }) {
    this.list.push({ what: `${what} ${WORDS[kind]}`, address: shown(address), line, column, message: shown(message) });
  }

  /** A line for each kind, with its count and its first places. Called by losses.js. */
  lines() {
    return [...new Set(this.list.map(({ what }) => what))].map((kind) => {
      const all = this.list.filter(({ what }) => what === kind);
      const places = all.slice(0, MOST_PLACES).map(({ address, line, column, message }) => `${address}:${line}:${column}: ${message}`);
      return `${kind}, kept as they are: ${all.length} (${places.join('; ')}${all.length > MOST_PLACES ? '; ..' : ''})`;
    });
  }
}

module.exports = { Unmarked };
