'use strict';
// What the trace and its names say of single accesses: their values, and how a variable is used elsewhere in the trace. Whether a value is the same, a flag, a
// counter, or lazily initialized (a cache that is filled if it is empty). Used by list/looks.js and typed.js.

const { FIRST_MODULE } = require('../../common/numbers.js');
const { isOfTree } = require('../../races/spelled-locations.js');
const { isMadeOfOld, mayReadOld } = require('./assignments.js');

/** Values of a flag: a letter for numbers, and one digit. */
const FLAG = /^(?:true|false|-|null|\?|n\w+1)$/;
/** So many actions write a scratch value, at least. */
const FEWEST_WRITERS = 3;

/** @typedef {{line: number, action: number, isWrite: boolean}} Access an access in a line of the trace */

/** @param {string|undefined} value */
const isNothing = (value) => value === '-' || value === 'null';
/** @param {string|undefined} value whether it has a text: equal digests mean equal values */
const isText = (value) => value !== undefined && /^(?:[snb]\w+|true|false|null)$/.test(value);
/**
 * Whether the first value of a variable is no write: the value before a write is recorded with it, or unknown.
 * @param {string} location
 */
const isOfObject = (location) => isOfTree(location) || (location.startsWith('var ') && Number(location.split(' ')[1]) >= FIRST_MODULE);

/**
 * @template T
 * @param {Map<string, T[]>} lists @param {string} key @param {T} one
 */
function addTo(lists, key, one) {
  const list = lists.get(key);
  if (list) list.push(one);
  else lists.set(key, [one]);
}

/**
 * A function whose answer depends on its first argument alone (the others follow from it), and is found once.
 * @template {unknown[]} T
 * @param {(...args: T) => boolean} find
 * @returns {(...args: T) => boolean}
 */
function remembered(find) {
  const known = new Map();
  return (...args) => {
    if (!known.has(args[0])) known.set(args[0], find(...args));
    return known.get(args[0]);
  };
}

/**
 * How many items at the start of a list come before something; no item after these does.
 * @template T
 * @param {T[]} list @param {(one: T) => boolean} isBefore
 */
function countBefore(list, isBefore) {
  let [low, high] = [0, list.length];
  while (low < high) {
    const middle = (low + high) >> 1;
    if (isBefore(list[middle])) low = middle + 1;
    else high = middle;
  }
  return low;
}

class Accesses {
  /**
   * @param {import('../types').Names} names
   * @param {import('../../races/actions.js').Actions} actions
   * @param {import('../../races/source-text.js').SourceText} sources
   */
  constructor(names, actions, sources) {
    this.places = names.places;
    this.values = names.values || {};
    this.befores = names.befores || {};
    this.kept = names.kept || {};
    this.counts = names.counts || {};
    this.sources = sources;
    /** @type {Map<string, Access[]>} by location, in the order of the trace */
    this.byLocation = new Map();
    /** @type {Map<string, number[]>} the lines of the writes by location, in the order of the trace, once they are asked for */
    this.writes = new Map();
    /** @type {Map<string, Map<string, Access[]>>} reads by location and place, once they are asked for */
    this.reads = new Map();
    /** @type {Map<string, boolean>} whether a read at a place is that of a cache, by location and place */
    this.caches = new Map();
    /**
     * Locations that are ever written with a known value.
     * @type {Set<string>}
     */
    this.seen = new Set();
    // An access is in many races: what its line or its location says is found once.
    this.isEmptyBefore = remembered(this.isEmptyBefore.bind(this));
    this.isCountAt = remembered(this.isCountAt.bind(this));
    this.isUpdate = remembered(this.isUpdate.bind(this));
    this.isScratch = remembered(this.isScratch.bind(this));
    this.readLines(actions);
  }

  /**
   * Reads the accesses of a trace, by location.
   * @param {import('../../races/actions.js').Actions} actions
   */
  readLines({ lines, list }) {
    let action = -1;
    lines.forEach((/** @type {string} */ text, /** @type {number} */ k) => {
      if (list[action + 1]?.line === k + 1) action++;
      if (!text.startsWith('w ') && !text.startsWith('r ')) return;
      const location = text.slice(2);
      const access = { line: k + 1, action, isWrite: text[0] === 'w' };
      addTo(this.byLocation, location, access);
      if (access.isWrite && this.values[k + 1] && this.values[k + 1] !== '?') this.seen.add(location);
    });
  }

  /**
   * The accesses to a location, in the order of the trace. Called by remaining.js and typed.js.
   * @param {string} location
   */
  of(location) {
    return this.byLocation.get(location) || [];
  }

  /**
   * The lines of the writes to a location. Called by typed.js.
   * @param {string} location
   */
  writesOf(location) {
    let lines = this.writes.get(location);
    if (!lines) this.writes.set(location, lines = this.of(location).filter(({ isWrite }) => isWrite).map(({ line }) => line));
    return lines;
  }

  /**
   * The reads of a location at a place of the code.
   * @param {string} location @param {string} place
   */
  readsAt(location, place) {
    let byPlace = this.reads.get(location);
    if (!byPlace) {
      this.reads.set(location, byPlace = new Map());
      for (const one of this.of(location)) if (!one.isWrite) addTo(byPlace, String(this.places[one.line]), one);
    }
    return byPlace.get(place) || [];
  }

  /**
   * The accesses of an action to a location. Called by typed.js.
   * @param {string} location @param {number} action
   */
  inAction(location, action) {
    const all = this.of(location);
    const first = countBefore(all, (one) => one.action < action);
    let end = first;
    while (all[end]?.action === action) end++;
    return all.slice(first, end);
  }

  // ---- values

  /**
   * Whether an access that finds this value finds nothing to use. Called by list/looks.js and remaining.js.
   * @param {string|undefined} value @param {string} location
   */
  isEmpty(value, location) {
    return isNothing(value) || (value === '?' && this.seen.has(location));
  }

  /**
   * Whether a location has nothing to use before it is written in a line: nobody wrote it, or nothing was written. Called by list/looks.js.
   * @param {number} line @param {string} location
   */
  isEmptyBefore(line, location) {
    if (this.befores[line] !== undefined) return this.isEmpty(this.befores[line], location);
    if (isOfObject(location)) return false;
    const writes = this.writesOf(location);
    const before = writes[countBefore(writes, (one) => one < line) - 1];
    return before === undefined || this.isEmpty(this.values[before], location);
  }

  /**
   * Whether the values of a race are those of a flag, if they are known; what is written to an object's variable has to be known. Called by list/looks.js.
   * @param {import('../types').Race} race
   */
  isFlag({ lines, modes, location }) {
    const isOne = (/** @type {number} */ line) => this.values[line] === undefined || FLAG.test(this.values[line]);
    return lines.every(isOne) && (!isOfObject(location) || lines.every((line, k) => modes[k] === 'r' || this.values[line] !== undefined));
  }

  /**
   * Whether both sides write a value that is known to be equal. Called by list/looks.js.
   * @param {import('../types').Race} race
   */
  isSameValue({ lines, modes }) {
    const [first, second] = lines.map((line) => this.values[line]);
    const isWrite = lines.every((line, k) => modes[k] === 'w' || this.kept[line]);
    return isWrite && isText(first) && first === second;
  }

  // ---- counts and updates

  /**
   * Whether the write of a line is a count whose value nobody uses.
   * @param {number} line
   */
  isCountAt(line) {
    const place = this.places[line];
    return !!this.counts[line] || (!!place && this.sources.isCount(place));
  }

  /**
   * Whether a side counts a variable, and nothing else: a read is the read of the count. Called by list/looks.js.
   * @param {import('../types').Race} race @param {number} k
   */
  isCount({ lines, modes, location, actions }, k) {
    if (modes[k] === 'w') return this.isCountAt(lines[k]);
    const place = String(this.places[lines[k]]);
    return this.inAction(location, actions[k]).some(({ line, isWrite }) => isWrite && line > lines[k] && this.isCountAt(line) && String(this.places[line]) === place);
  }

  /**
   * Whether a write makes the new value of the old one (`x++`, `x += 1`, `x = x + 1`), so that it keeps what another action wrote. Called by list/looks.js and
   * list/problems.js.
   * @param {number} line @param {number} action @param {string} location
   */
  isUpdate(line, action, location) {
    if (location.endsWith(' (names)')) return true; // a set of keys: a key is added or removed, the others stay
    if (this.isCountAt(line)) return true;
    const place = this.places[line];
    if (!place) return false;
    if (isMadeOfOld(this.sources, place)) return true;
    return this.inAction(location, action).some((one) => !one.isWrite && one.line < line && String(this.places[one.line]) === String(place));
  }

  // ---- what else the trace does with a location

  /**
   * Whether code of the same action wrote a location before the read in a line. Called by list/looks.js.
   * @param {string} location @param {number} action @param {number} line
   */
  isWrittenBefore(location, action, line) {
    return this.inAction(location, action).some((one) => one.isWrite && one.line < line);
  }

  /**
   * Whether a location is written between two lines. Called by list/looks.js.
   * @param {string} location @param {number} from @param {number} to
   */
  isWrittenBetween(location, from, to) {
    const writes = this.writesOf(location);
    return countBefore(writes, (one) => one < to) > countBefore(writes, (one) => one <= from);
  }

  /**
   * Whether a read is that of a cache: if it finds nothing, the same action writes a value. This is known where it happened, in this action or, at the
   * same place of the code, in another one. Called by list/looks.js.
   * @param {number} line @param {number} action of the read @param {string} location
   */
  isOfCache(line, action, location) {
    if (!this.places[line]) return this.isFilled({ line, action, isWrite: false }, location);
    const place = String(this.places[line]);
    const key = `${location} ${place}`;
    let isOne = this.caches.get(key);
    if (isOne === undefined) this.caches.set(key, isOne = this.readsAt(location, place).some((read) => this.isFilled(read, location)));
    return isOne;
  }

  /**
   * Whether a read finds nothing, and its action then writes a value.
   * @param {Access} read @param {string} location
   */
  isFilled({ line, action }, location) {
    return this.inAction(location, action).some((one) => one.isWrite && one.line > line
      && (this.values[line] === undefined ? this.isEmptyBefore(one.line, location) : this.isEmpty(this.values[line], location)));
  }

  /**
   * Whether several actions write a variable of an object, and none reads what another one wrote: each uses it only in itself. A read before all writes finds
   * the first value. Called by list/looks.js.
   * @param {string} location
   */
  isScratch(location) {
    return isOfObject(location) && !isOfTree(location) && !location.endsWith(')') && this.isWrittenWhole(location);
  }

  /** Whether several actions write a location, none by what was there before, and no other action reads it after a write. */
  isWrittenWhole(/** @type {string} */ location) {
    /** @type {Set<number>} */
    const writers = new Set();
    for (const { line, action, isWrite } of this.of(location)) {
      if (isWrite && (this.isUpdate(line, action, location) || mayReadOld(this.sources, this.places[line]))) return false;
      if (isWrite || this.kept[line]) writers.add(action);
      else if (writers.size && !writers.has(action)) return false;
    }
    return writers.size >= FEWEST_WRITERS;
  }
}

module.exports = { Accesses, isNothing, countBefore };
