'use strict';
// The rules that leave accesses out, tested against the whole recording: which races of it what is left has not, and by which rule.

const { FIRST_MODULE } = require('../common/numbers.js');

/** What each rule leaves out of the races, in words. */
const RULES = {
  own: 'a read after a write of its own action',
  kept: 'a write that leaves the old value, and a mere reader',
  bothKept: 'two writes that leave the old value',
  told: 'a write that leaves the old value, told as a read',
  closure: 'a variable of a closure that no action reads before it writes it',
  first: 'an access to a thing by the action that made it, where another race hands the thing over',
  firstLone: 'an access to a thing by the action that made it, handed over by what is no race of these two actions',
  parser: 'a step of the parser between two others',
  libraries: 'what only libraries touch',
  tooLarge: 'what is too large for the format',
};

/**
 * @typedef {import('../list/types').Race} Race
 * @typedef {{races: Race[]}} Report
 * @typedef {{text: string, why?: string}} Line
 * @typedef {{[number: string]: {made?: string}}} Objects what is known of them
 * @typedef {{mode: string, action: number, why?: string}} Side
 * @typedef {keyof typeof RULES} Rule
 */

/** @param {Race} race */
const keyOf = ({ actions, location }) => `${actions.join(' ')} ${location}`;

/**
 * The modes of the races of each pair of actions at each location.
 * @param {Race[]} races
 */
function modesOf(races) {
  /** @type {Map<string, Set<string>>} */
  const modes = new Map();
  for (const race of races) modes.set(keyOf(race), (modes.get(keyOf(race)) || new Set()).add(race.modes));
  return modes;
}

class Comparison {
  /**
   * @param {{records: Line[], names: {objects?: Objects}, report: Report}} whole
   * @param {{report: Report}} left
   * @param {{libraries?: Set<string>, tooLarge?: Set<string>}} gone the locations that were left out for other reasons
   */
  constructor(whole, left, { libraries = new Set(), tooLarge = new Set() } = {}) {
    this.whole = whole;
    this.libraries = libraries;
    this.tooLarge = tooLarge;
    this.ofWhole = modesOf(whole.report.races);
    this.ofLeft = modesOf(left.report.races);
    this.pairs = new Set(whole.report.races.filter((race) => !this.sidesOf(race).some(({ why }) => why === 'first')).map(({ actions }) => actions.join(' ')));
    this.begins = beginsOf(whole.records);
    this.readAtAll = new Set(whole.records.filter(({ text, why }) => text.startsWith('r ') && (why === undefined || why === 'first')).map(({ text }) => text.slice(2)));
    this.steps = this.stepsOf(left.report.races);
    /** @type {{[rule in Rule]?: number}} how many races each rule leaves out */
    this.counts = {};
    /** @type {Race[]} those that no rule explains */
    this.unexplained = [];
    this.foreign = left.report.races.filter((race) => !this.isOfWhole(race));
    whole.report.races.forEach((race) => this.add(race));
  }

  /**
   * @param {Race} race
   * @returns {Side[]}
   */
  sidesOf({ lines, modes, actions }) {
    return [0, 1].map((k) => ({ mode: modes[k], action: actions[k], why: this.whole.records[lines[k] - 2].why }));
  }

  /** @param {Side} side */
  isStep({ mode, action }) {
    return mode === 'w' && this.begins[action].startsWith('parse ');
  }

  /**
   * The races with steps of the parser, by location and the other action.
   * @param {Race[]} races
   */
  stepsOf(races) {
    /** @type {Set<string>} */
    const steps = new Set();
    for (const { modes, actions, location } of races) {
      [0, 1].filter((k) => this.isStep({ mode: modes[k], action: actions[k] })).forEach((k) => steps.add(`${actions[1 - k]} ${modes[1 - k]} ${location}`));
    }
    return steps;
  }

  /**
   * A race of what is left is one of the whole; a side that is written as a read can be a write there.
   * @param {Race} race
   */
  isOfWhole(race) {
    const modes = this.ofWhole.get(keyOf(race));
    return modes !== undefined && [...modes].some((one) => [0, 1].every((k) => one[k] === race.modes[k] || race.modes[k] === 'r'));
  }

  /** @param {Race} race */
  add(race) {
    if (this.ofLeft.get(keyOf(race))?.has(race.modes)) return;
    const rule = this.ruleOf(race, this.sidesOf(race));
    if (rule) this.counts[rule] = (this.counts[rule] || 0) + 1;
    else this.unexplained.push(race);
  }

  /**
   * @param {Race} race
   * @param {Side[]} sides
   * @returns {Rule|''}
   */
  ruleOf(race, sides) {
    const { location } = race;
    if (this.libraries.has(location)) return 'libraries';
    if (this.tooLarge.has(location)) return 'tooLarge';
    if (sides.some(({ why }) => why === 'first')) return this.pairs.has(race.actions.join(' ')) ? 'first' : 'firstLone';
    if (this.isScope(location) && !this.readAtAll.has(location)) return 'closure';
    if (sides.some((side, k) => side.why === 'own' && this.hasWrite(race, k))) return 'own';
    return this.ruleOfKept(race, sides) || this.ruleOfStep(race, sides);
  }

  /** @param {string} location */
  isScope(location) {
    const number = Number(location.split(' ')[1]);
    return location.startsWith('var ') && number >= FIRST_MODULE && !this.whole.names.objects?.[number]?.made;
  }

  /**
   * Whether the race of the same two actions is there in which this side writes.
   * @param {Race} race
   * @param {number} k
   */
  hasWrite(race, k) {
    const modes = [...race.modes];
    modes[k] = 'w';
    return !!this.ofWhole.get(keyOf(race))?.has(modes.join(''));
  }

  /**
   * @param {Race} race
   * @param {Side[]} sides
   * @returns {Rule|''}
   */
  ruleOfKept(race, sides) {
    const k = sides.findIndex(({ why }) => why === 'same');
    if (k < 0) return '';
    const other = sides[1 - k];
    if (other.why === 'same') return 'bothKept';
    if (other.mode === 'r') return 'kept';
    return this.ofLeft.get(keyOf(race))?.has(k === 0 ? 'rw' : 'wr') ? 'told' : this.ruleOfStep({ ...race, modes: k === 0 ? 'rw' : 'wr' }, sides.map((side, at) => (at === k ? { ...side, mode: 'r' } : side)));
  }

  /**
   * @param {Race} race
   * @param {Side[]} sides
   * @returns {Rule|''}
   */
  ruleOfStep(race, sides) {
    const isBeside = (/** @type {Side} */ side, /** @type {number} */ k) => this.isStep(side) && this.steps.has(`${sides[1 - k].action} ${sides[1 - k].mode} ${race.location}`);
    return sides.some(isBeside) ? 'parser' : '';
  }
}

/** @param {Line[]} records */
function beginsOf(records) {
  const { BEGINS } = require('../trace/records.js');
  return records.map(({ text }) => text).filter((text) => BEGINS.has(text.split(' ')[0]));
}

module.exports = { Comparison, RULES };
