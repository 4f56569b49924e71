'use strict';
// A run of a page for tests without a browser: its keys, from the lines of its trace and what is known of the numbers there.

const { Keys } = require('../races/keys.js');

/** @typedef {import('../races/types').NamesOfTrace} NamesOfTrace */

const PAGE = 'http://localhost/page.html';
const FILES = [{ address: PAGE, text: '<p>\n<script>\n' }];

/**
 * The keys of a run in which element 2 is a script.
 * @param {string[]} lines
 * @param {NamesOfTrace['places']} [places]
 * @param {Partial<NamesOfTrace>} [facts]
 */
function keysOf(lines, places = {}, facts = {}) {
  /** @type {NamesOfTrace} */
  const names = {
    files: FILES, documents: { 0: { address: PAGE } }, handlers: {}, intervals: {}, requests: {}, dispatches: {}, objects: {},
    elements: { 2: { tag: 'script', place: [0, 2, 1] } }, timeouts: {}, places, ...facts,
  };
  return new Keys(['webtrace 3', ...lines, 'end', ''].join('\n'), names);
}

/** @param {number} file */
const sourceOf = (file) => FILES[file];

module.exports = { keysOf, sourceOf, PAGE };
