'use strict';
// The pairs of conflicting accesses of several recordings of one page, by names that are the same in each: which came first, and whether rules order them.

const { NamedRun } = require('../races/named-run.js');

/** @typedef {import('../races/types').Report} Report */
/** @typedef {import('../races/types').NamesOfTrace} NamesOfTrace */

/**
 * A pair of actions with conflicting accesses at a location, in one run.
 * @typedef {object} Pair
 * @property {string} name the same in each run
 * @property {string} actions the part of the name that is of the two actions
 * @property {1|2} order which of the two sides came first, in the order of the name
 * @property {boolean} isOrdered whether the rules order the two; otherwise it is a race
 * @property {[number, number]} numbers of the actions
 * @property {[number, number]} lines of the first access of each
 * @property {string} location
 */
/** @typedef {Map<number, {modes: Set<string>, line: number}>} AccessesOfActions */

/** At most so many pairs are compared in a run. */
const MOST_PAIRS = 200000;

/** Names without counts: what has the name of another thing in a run is left out, since which of the two is which can differ from run to run. */
class UncountedRun extends NamedRun {
  /** @param {string} name */
  counted(name) {
    return name;
  }
}

class RunPairs {
  /**
   * @param {string} text of the trace
   * @param {NamesOfTrace} names
   * @param {Report} report
   */
  constructor(text, names, report) {
    this.run = new UncountedRun(text, names);
    this.races = new Set(report.races.map(({ location, actions }) => `${location}|${actions.join('|')}`));
    /** @type {string[]} the names of the actions */
    this.names = this.nameActions();
    /** @type {string[]} the same, but '' if several events of the run have one */
    this.ofActions = this.ownNames();
    /** @type {Map<string, Pair>} */
    this.pairs = new Map();
    /** @type {Set<string>} the names that several pairs of the run have, in both orders or in part ordered */
    this.several = new Set();
    this.leftOut = 0;
    this.count = 0;
    this.isCut = false;
    for (const [location, accesses] of this.accesses()) this.addPairs(location, accesses);
  }

  /** A piece of an event that a dispatch suspended has its own name. */
  nameActions() {
    /** @type {Map<number, number>} */
    const pieces = new Map();
    return this.run.actions.list.map(({ number, first }) => {
      const piece = (pieces.get(first) || 0) + 1;
      pieces.set(first, piece);
      return `${this.run.action(number)}${piece > 1 ? `, piece ${piece}` : ''}`;
    });
  }

  ownNames() {
    const { list } = this.run.actions;
    /** @type {Map<string, Set<number>>} */
    const events = new Map();
    list.forEach(({ number, first }) => {
      const name = this.run.action(number);
      events.set(name, (events.get(name) || new Set()).add(first));
    });
    return this.names.map((name, number) => (Number(events.get(this.run.action(number))?.size) > 1 || this.isNameless(number) ? '' : name));
  }

  /**
   * Whether it is a step of the parser that nothing distinguishes from others: a text, whose pieces differ from run to run, or an element without a place.
   * @param {number} number
   */
  isNameless(number) {
    const { words: [word, , element] } = this.run.actions.list[number];
    const { place, id, standsFor } = this.run.names.elements[element] || {};
    return word === 'parse' && !place && !id && !standsFor;
  }

  /** The accesses to each location, by action. */
  accesses() {
    const { lines, list } = this.run.actions;
    /** @type {Map<string, AccessesOfActions>} */
    const all = new Map();
    let action = -1;
    lines.forEach((text, k) => {
      if (list[action + 1]?.line === k + 1) action++;
      const found = /^([rw]) (.*)$/.exec(text);
      if (!found) return;
      const own = all.get(found[2]) || new Map();
      const known = own.get(action) || { modes: new Set(), line: k + 1 };
      known.modes.add(found[1]);
      all.set(found[2], own.set(action, known));
    });
    return all;
  }

  /**
   * @param {string} location
   * @param {AccessesOfActions} accesses
   */
  addPairs(location, accesses) {
    const { list } = this.run.actions;
    const all = [...accesses];
    all.forEach(([second, b], k) => {
      for (const [first, a] of all.slice(0, k)) {
        if (list[first].first === list[second].first || !(a.modes.has('w') || b.modes.has('w'))) continue;
        this.isCut = ++this.count > MOST_PAIRS;
        if (this.isCut) return;
        this.addPair(location, [first, second], [a.line, b.line]);
      }
    });
  }

  /**
   * @param {string} location
   * @param {[number, number]} numbers
   * @param {[number, number]} lines
   */
  addPair(location, numbers, lines) {
    const sides = numbers.map((number) => this.ofActions[number]);
    if (!sides[0] || !sides[1]) {
      this.leftOut++;
      return;
    }
    const actions = [...sides].sort().join('\n');
    const name = `${this.run.location(location, 'w')}\n${actions}`;
    const isOrdered = !this.races.has(`${location}|${numbers.join('|')}`);
    /** @type {Pair} */
    const pair = { name, actions, order: sides[0] < sides[1] ? 1 : 2, isOrdered, numbers, lines, location };
    const known = this.pairs.get(name);
    if (known && (known.order !== pair.order || known.isOrdered !== isOrdered)) this.several.add(name);
    this.pairs.set(name, pair);
  }

  /** @param {number} number of an action */
  inWordsOf(number) {
    const { words } = this.run;
    return words.apart(() => words.action(number));
  }

  /**
   * A pair in words, with the lines of the trace.
   * @param {Pair} pair
   */
  inWords({ location, numbers, lines, isOrdered }) {
    const { words } = this.run;
    const { text } = words.location(location);
    const sides = numbers.map((number, k) => {
      const place = words.place(words.placeOfLine(lines[k]));
      return `${this.inWordsOf(number)}${place ? ` (in ${place})` : ''}, action ${number}, line ${lines[k]}`;
    });
    return `"${text}": ${sides.join('; then ')}; ${isOrdered ? 'ordered' : 'listed'}`;
  }
}

/**
 * What several runs of a page have of a pair.
 * @typedef {{name: string, actions: string, seen: {run: number, pair: Pair}[]}} SeenPair
 */

/**
 * The pairs by what came of them; `several` and `leftOut` count names that more than one pair of a run has.
 * @param {RunPairs[]} runs
 */
function compareRuns(runs) {
  /** @type {Map<string, SeenPair>} */
  const all = new Map();
  const several = new Set(runs.flatMap((run) => [...run.several]));
  runs.forEach((one, run) => {
    for (const [name, pair] of one.pairs) {
      if (several.has(name)) continue;
      const known = all.get(name) || { name, actions: pair.actions, seen: [] };
      known.seen.push({ run, pair });
      all.set(name, known);
    }
  });
  const pairs = [...all.values()];
  const isBoth = (/** @type {SeenPair} */ { seen }) => new Set(seen.map(({ pair }) => pair.order)).size > 1;
  const isOrdered = (/** @type {SeenPair} */ { seen }) => seen.some(({ pair }) => pair.isOrdered);
  const isListed = (/** @type {SeenPair} */ { seen }) => seen.some(({ pair }) => !pair.isOrdered);
  const both = pairs.filter(isBoth);
  const single = pairs.filter((one) => !isBoth(one));
  return {
    orderedOnce: single.filter((one) => isOrdered(one) && !isListed(one)),
    listedBoth: both.filter((one) => !isOrdered(one)),
    orderedBoth: both.filter(isOrdered),
    listedOnce: single.filter(isListed),
    several: several.size,
    leftOut: Math.max(0, ...runs.map((run) => run.leftOut)),
    isCut: runs.some(({ isCut }) => isCut),
  };
}

module.exports = { RunPairs, compareRuns };
