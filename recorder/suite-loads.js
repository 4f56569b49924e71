'use strict';
// The page loads of a run of a suite: their races by stable name, and what can be held back so that one comes in the other order.

const fs = require('node:fs');
const { eachAtOnce } = require('./common/at-once.js');
const { Lines } = require('./common/lines.js');
const { logOf } = require('./driven/asked.js');
const { LastingNames } = require('./list/lasting.js');
const { USER_EVENTS } = require('./list/patterns/user-acts.js');
const { Keys } = require('./races/keys.js');
const { judgeWithin } = require('./races/within-limits.js');
const { Causes } = require('./replay/causes/causes.js');
const { Orders } = require('./replay/found/orders.js');
const { compare } = require('./replay/found/compare.js');
const { namesFile } = require('./recording/files.js');

/** @typedef {import('./replay/types').Cause} Cause */
/** @typedef {import('./races/types').Report} Report */
/** @typedef {import('./races/types').Race} Race */
/**
 * What er_browser stores of a load; `asked` and `held` only in a run of --replay-with.
 * @typedef {{address: string, nth?: number, begun: string, ended?: string, errors?: string[], asked?: import('./driven/asked.js').AskedByLoad[],
 *   held?: {isHeld: boolean, isReached: boolean, heldFor: number}}} LoadFacts
 */

/** Traces that are queried at once: each has a process of the analyzer. */
const AT_ONCE = 4;
/** Nothing of a page's end is known: its test ends it at any time. */
const NO_END = { isKnown: false, consoleErrors: [], dialogs: [], requests: [], lines: [], ids: [], fields: {}, storage: {}, variables: {}, title: '', hash: '', focus: '', picture: null };

/** Made by suite-replays.js for each load that is compared. */
class SuiteLoad {
  /** @param {string} file the trace */
  constructor(file) {
    this.file = file;
    this.text = fs.readFileSync(file, 'utf8');
    this.names = JSON.parse(fs.readFileSync(namesFile(file), 'utf8'));
    /** @type {LoadFacts} */
    this.facts = this.names.load;
    this.keys = new Keys(this.text, this.names);
  }

  /** As `compare` reads a run: its errors, the load of its window, and the handlers that ran in its events. */
  comparable() {
    const isLoaded = /^load \d+ 0$/m.test(this.text);
    return { keys: this.keys, end: { ...NO_END, errors: this.facts.errors || [], isLoaded } };
  }

  /**
   * What differs between the end of this load and that of another one. Called by suite-replays.js.
   * @param {SuiteLoad} other
   */
  differencesTo(other) {
    return compare(this.comparable(), other.comparable());
  }

  /**
   * What the two accesses of a race are in any run.
   * @param {Race} race
   */
  sidesOf(race) {
    return new Orders({ races: [] }, this.keys).sidesOf(race);
  }

  /**
   * What can be held back so that a race comes in the other order; acts of a user are the test's.
   * @param {Race} race
   * @returns {Promise<{causes: (Cause & {line?: number, column?: number})[], why: string}>}
   */
  async toReverse({ actions: [first, second] }) {
    const { files } = this.names;
    const sourceOf = (/** @type {number} */ file) => ({ address: files[file].address, text: textOf(files[file]) });
    const { causes, why } = await new Causes(this.keys, logOf(this.facts.asked || []), [], sourceOf).toDelay(this.file, first, second);
    const own = causes.filter(({ event }) => !event || !USER_EVENTS.has(event.type));
    if (!own.length && causes.length) return { causes: [], why: `${causes[0].words.replace(/ is kept back$/, '')} is an act of the test: only the test can do it later` };
    return { causes: own.map((cause) => this.withPlace(cause)), why };
  }

  /**
   * A wait of the parser with the place of its tag: text before it, as the number of a session, can be longer in another run.
   * @param {Cause} cause
   */
  withPlace(cause) {
    if (cause.means !== 'parser' || typeof cause.offset !== 'number') return cause;
    const file = this.names.files.find((/** @type {{address: string}} */ { address }) => address === cause.address);
    return file ? { ...cause, ...new Lines(textOf(file)).placeOf(cause.offset) } : cause;
  }

  /** Milliseconds from its start to its end. */
  length() {
    const { begun, ended = begun } = this.facts;
    return Date.parse(ended) - Date.parse(begun);
  }
}

/**
 * The text of a file; of a long one its known lines, each at its number.
 * @param {import('./races/types').FileFacts} file
 */
function textOf({ text, lines = {} }) {
  if (text !== undefined) return text;
  const last = Math.max(0, ...Object.keys(lines).map(Number));
  return Array.from({ length: last }, (_, k) => lines[k + 1] || '').join('\n');
}

/**
 * The races of all loads of a run by their names, and by those of their problems: of each name the first. Called by suite-replays.js.
 * @param {string[]} files
 */
async function racesByName(files) {
  /** @type {Map<string, {file: string, race: Race}>} */
  const found = new Map();
  const all = await eachAtOnce(files, AT_ONCE, async (file) => {
    const { report } = await judgeWithin(file);
    if (!report || report.refused) return [];
    const lasting = new LastingNames(fs.readFileSync(file, 'utf8'), JSON.parse(fs.readFileSync(namesFile(file), 'utf8')));
    return report.races.map((race) => ({ file, race, ...lasting.nameRace(race) }));
  });
  for (const { file, race, name, problem } of all.flat()) {
    for (const one of [name, problem]) if (!found.has(one)) found.set(one, { file, race });
  }
  return found;
}

module.exports = { SuiteLoad, racesByName };
