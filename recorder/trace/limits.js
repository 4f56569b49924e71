'use strict';
// What the analyzer can't take of a trace that is too big is left out, so that the rest is analyzed: locations with too many accesses or pairs, and records
// beyond the limits. If there are too many, they are dropped and counted.

const { BEGINS } = require('./records.js');
const { wordOf } = require('./intake.js');

/** @typedef {{location: string, accesses: number, pairs: number}} LocationSize */

/** What a trace may have (docs/format.md): how many accesses, how many candidate pairs of them, and how many actions. */
const MOST_ACCESSES = 1048576;
const MOST_PAIRS = 16777216;
const MOST_ACTIONS = 32768;
/** How many records: a trace has a line more at its start and one at its end. */
const MOST_RECORDS = 2097150;

/** One location: its accesses and pairs so far. What the running action has had is no pair of its own. */
class Size {
  /** @param {string} location */
  constructor(location) {
    this.location = location;
    this.accesses = 0;
    this.pairs = 0;
    this.action = 0;
    this.reads = { all: 0, before: 0, isNow: false };
    this.writes = { all: 0, before: 0, isNow: false };
  }

  /**
   * The next access is of an action.
   * @param {number} action
   */
  enter(action) {
    if (this.action === action) return;
    this.action = action;
    for (const one of [this.reads, this.writes]) {
      one.before = one.all;
      one.isNow = false;
    }
  }

  /**
   * Counts an access of an action.
   * @param {string} mode
   * @param {number} action
   */
  add(mode, action) {
    this.enter(action);
    const own = mode === 'r' ? this.reads : this.writes;
    if (own.isNow) return;
    own.isNow = true;
    own.all++;
    this.accesses++;
    this.pairs += this.writes.before + (mode === 'w' ? this.reads.before : 0);
  }
}

/**
 * How many accesses each location has, and candidate pairs: two accesses of different actions, at least one of them a write (docs/report.md). Called by
 * races/within-limits.js.
 * @param {string[]} lines the records of a trace
 * @returns {LocationSize[]} those with the most pairs first
 */
function sizesOf(lines) {
  /** @type {Map<string, Size>} */
  const sizes = new Map();
  let action = 0;
  for (const line of lines) {
    const word = wordOf(line);
    if (BEGINS.has(word)) action++;
    if (word !== 'r' && word !== 'w') continue;
    const location = line.slice(2);
    const size = sizes.get(location) || new Size(location);
    sizes.set(location, size);
    size.add(word, action);
  }
  return [...sizes.values()].sort((a, b) => b.pairs - a.pairs || b.accesses - a.accesses);
}

/**
 * Called by races/within-limits.js.
 * @param {LocationSize[]} sizes
 * @param {'accesses'|'pairs'} what
 */
const sum = (sizes, what) => sizes.reduce((total, one) => total + one[what], 0);

/**
 * The locations that have to go so that what is left has no more than `most` of something.
 * @param {LocationSize[]} sizes
 * @param {'accesses'|'pairs'} what
 * @param {number} most
 */
function tooLarge(sizes, what, most) {
  /** @type {LocationSize[]} */
  const gone = [];
  let left = sum(sizes, what);
  for (const one of [...sizes].sort((a, b) => b[what] - a[what])) {
    if (left <= most) break;
    left -= one[what];
    gone.push(one);
  }
  return gone;
}

/**
 * The locations that a trace can't have, the largest first. Called by races/within-limits.js and recording/files.js.
 * @param {string[]} lines
 * @returns {LocationSize[]}
 */
function beyond(lines, { mostPairs = MOST_PAIRS, mostAccesses = MOST_ACCESSES } = {}) {
  const sizes = sizesOf(lines);
  const byPairs = tooLarge(sizes, 'pairs', mostPairs);
  const rest = sizes.filter((one) => !byPairs.includes(one));
  return [...byPairs, ...tooLarge(rest, 'accesses', mostAccesses)].map(({ location, accesses, pairs }) => ({ location, accesses, pairs }));
}

/**
 * Whether a line is an access to one of some locations. Called by races/within-limits.js and recording/files.js.
 * @param {string} line
 * @param {Set<string>} locations
 */
function isAt(line, locations) {
  return (line[0] === 'r' || line[0] === 'w') && line[1] === ' ' && locations.has(line.slice(2));
}

/**
 * The elements that a record names, other than their own parse step.
 * @param {{text: string}[]} records
 */
function usedElements(records) {
  const used = new Set();
  for (const { text } of records) {
    const words = text.split(' ');
    if (['eload', 'fire', 'inline'].includes(words[0])) used.add(words[2]);
    if (words[0] === 'exec') used.add(words[1]);
  }
  return used;
}

/**
 * Leaves out parse steps of plain elements in which nothing happens and that nothing names, from the first on, until the trace
 * has no more actions than it may have. A parse step without accesses gives no race, and its neighbors keep their order. What is still
 * beyond a limit is cut off at the end. Called by recording/files.js.
 * @template {{text: string}} R
 * @param {R[]} all
 * @returns {{records: R[], leftOut: number, cut: number}}
 */
function keepWithin(all, most = MOST_ACTIONS, mostAccesses = MOST_ACCESSES) {
  let accesses = 0;
  const tooMuch = all.findIndex(({ text }, k) => k >= MOST_RECORDS || (/^[rw] /.test(text) && ++accesses > mostAccesses));
  const records = tooMuch < 0 ? all : all.slice(0, tooMuch);
  const tooMany = all.length - records.length;
  const begins = records.map(({ text }) => BEGINS.has(wordOf(text)));
  let spare = begins.filter(Boolean).length - most;
  if (spare <= 0) return { records, leftOut: 0, cut: tooMany };
  const used = usedElements(records);
  /**
   * @param {R} record
   * @param {number} k
   */
  const isQuiet = ({ text }, k) => /^parse \d+ \d+ plain$/.test(text) && (k + 1 === records.length || begins[k + 1]) && !used.has(text.split(' ')[2]);
  const kept = records.filter((one, k) => !(spare > 0 && k > 0 && isQuiet(one, k) && spare--));
  const leftOut = records.length - kept.length;
  let actions = 0;
  const end = kept.findIndex(({ text }) => BEGINS.has(wordOf(text)) && ++actions > most);
  return { records: end < 0 ? kept : kept.slice(0, end), leftOut, cut: tooMany + (end < 0 ? 0 : kept.length - end) };
}

module.exports = { sizesOf, beyond, isAt, sum, keepWithin };
