'use strict';
// Takes the page's log as it comes: lines of the trace with their places, facts about numbers, and counts of what was missed. Malformed and unknown lines are
// rejected and counted.
//
// The page may have written any of it, so nothing is taken on trust. What is taken fits the tables of log/: each line has a keyword and as many
// tokens as belong to it, each number is below 2^32, a fact has the members of its kind, and a place in marked code is one. The rest is counted.
// That the lines together are a trace is the concern of spelling/legal.js.

const { debug } = require('../common/debug.js');
const { withoutCommands } = require('../common/shown.js');
const { Facts, VALUE } = require('./log/facts.js');
const { isLine, isNumber } = require('./log/shapes.js');
const { withPoints } = require('./points.js');
const { BEGINS: RECORDS } = require('./records.js');

/**
 * A line of the log. `found` is what an access found (page/log/values.js), `stack` the number of a fact of this kind.
 * @typedef {{text: string, place?: string, found?: string, stack?: string}} Entry
 * @typedef {import('./log/facts.js').Fact} Fact
 */

/** The lines of the log that begin an action: the records that do, and the run of a module, which becomes one of them. */
const BEGINS = new Set([...RECORDS, 'module']);
/** A trace has a third of these lines at most. */
const MOST_ENTRIES = 8000000;
const MOST_FACTS = 4000000;
const MOST_COUNTS = 200;
const LONGEST_COUNTED = 200;
const LONGEST_PLACE = 8000;
const PLACE = /^[^\n\t]+:\d{1,9}:\d{1,9}$/;
const GARBLED = "lines of the page's log that no recorder writes";

/** @param {string} line */
const wordOf = (line) => line.slice(0, line.indexOf(' '));

/**
 * The counts of what was missed, or null.
 * @param {string} json
 */
function readCounts(json) {
  try {
    /** @type {unknown} */
    const given = JSON.parse(json);
    if (given === null || typeof given !== 'object' || Array.isArray(given)) return null;
    const counts = Object.entries(given);
    if (counts.length > MOST_COUNTS || !counts.every(([, count]) => Number.isSafeInteger(count) && count >= 0)) return null;
    return new Map(counts.map(([what, count]) => [withoutCommands(what.slice(0, LONGEST_COUNTED)), Number(count)]));
  } catch {
    return null; // no JSON
  }
}

/** Made by session.js, and by driven/load.js for each load. */
class Intake {
  /** @param {{countSites?: () => number}} options `countSites` says how many places of marked code there are */
  constructor({ countSites = () => Infinity } = {}) {
    this.countSites = countSites;
    this.facts = new Facts(countSites);
    /** @type {Entry[]} */
    this.log = [];
    this.hasPoints = false;
    this.placed = { length: 0, entries: this.log };
    /** @type {Fact[]} */
    this.names = [];
    /** @type {Map<string, number>} */
    this.counts = new Map();
    this.garbled = 0;
    this.actions = 0;
  }

  /** The log without points (points.js). */
  get entries() {
    if (!this.hasPoints) return this.log;
    if (this.placed.length !== this.log.length) this.placed = { length: this.log.length, entries: withPoints(this.log, BEGINS) };
    return this.placed.entries;
  }

  /** Counts of what was not recorded. */
  get missed() {
    /** @type {{[what: string]: number}} */
    const missed = Object.create(null);
    for (const [what, count] of this.counts) missed[what] = count;
    if (this.garbled) missed[GARBLED] = this.garbled;
    return missed;
  }

  /**
   * Takes the lines of a batch. Called as the page sends it. Called by driven/load.js and recording/session.js.
   * @param {string} batch
   */
  take(batch) {
    debug('page', 'LOG', batch);
    for (const line of batch.split('\n')) if (line && !this.takeLine(line)) this.garbled++;
  }

  /**
   * A line by its first letter: a fact, counts, or an entry. Whether it was taken.
   * @param {string} line
   * @returns {boolean} whether all of it was taken
   */
  takeLine(line) {
    if (line[0] === '#') return this.takeFact(line.slice(1));
    if (line[0] === '!') return this.takeCounts(line.slice(1));
    return this.takeEntry(line);
  }

  /**
   * Takes a fact, if it is of a known kind and there are not too many.
   * @param {string} json
   */
  takeFact(json) {
    const fact = this.names.length < MOST_FACTS ? this.facts.read(json) : null;
    if (fact) this.names.push(fact);
    return fact !== null;
  }

  /**
   * Takes the counts of what is not recorded; later ones replace earlier ones, as the page adds up itself.
   * @param {string} json
   */
  takeCounts(json) {
    const counts = readCounts(json);
    this.counts = counts || this.counts;
    return counts !== null;
  }

  /**
   * What comes with a line is left out if it is wrong, and the line stays: else the numbers of later actions would be others.
   * @param {string} line
   */
  takeEntry(line) {
    const [text, ...beside] = line.split('\t');
    if (beside.length > 3 || !isLine(text) || this.log.length >= MOST_ENTRIES) return false;
    const [place = '', found = '', stack = ''] = beside;
    const [hasPlace, hasFound, hasStack] = [this.isPlace(place), VALUE.test(found), isNumber(stack)];
    if (BEGINS.has(wordOf(text))) this.actions++;
    if (text.startsWith('point ')) this.hasPoints = true;
    this.log.push({ text, place: hasPlace ? place : undefined, found: hasFound ? found : undefined, stack: hasStack ? stack : undefined });
    return (hasPlace || !place) && (hasFound || !found) && (hasStack || !stack);
  }

  /** @param {string} place the number of a mark, or a place in the browser's copy */
  isPlace(place) {
    return isNumber(place) ? Number(place) < this.countSites() : place.length <= LONGEST_PLACE && PLACE.test(place);
  }
}

module.exports = { Intake, BEGINS, wordOf };
