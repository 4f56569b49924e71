'use strict';
// Which races the view shows, within the size that its model has left. Each race is in the line of one problem, so the sizes of all lines are all races.

const { sizeOf } = require('./embedded.js');
const { toldOf } = require('./lines.js');

/**
 * @typedef {import('../list/listing.js').Listed} Listed
 * @typedef {import('../list/listing.js').Listing} Listing
 * @typedef {import('./model.js').Model} Model
 */
/**
 * The races of a group that are in the line of one problem: the index of the group, how many they are, and the one that is shown first.
 * @typedef {{group: number, size: number, race: number}} Share
 */

/** So many races of a group are shown at most for a problem. */
const MOST_OF_GROUP = 100;
/** Of a problem so many groups come before the next problem. */
const MOST_FIRST_GROUPS = 20;

/**
 * The races that are shown while there is room: of each problem the first one and those of its first groups, then those of the other groups, then
 * the others of all groups. Called by model.js.
 * @param {Model} model
 * @param {Listing} listing
 */
function choose(model, listing) {
  const names = model.report.races.map((_, k) => listing.lineOfRace(0, k));
  const shown = new Shown(model, names, listing);
  const lines = listing.inOrder();
  const problems = lines.flatMap((line) => line.problems);
  const others = new Map(lines.map((line) => [line.problems[0].name, line.problems.slice(1)]));
  const shares = sharesOf(model.report.races, names, problems, listing.runs[0].leads);
  const ofProblem = (/** @type {Listed} */ { name }) => [...shares.get(name)?.values() || []];
  const add = (/** @type {Share} */ share) => shown.addShare(share);
  problems.every((problem) => shown.addProblem(problem, others.get(problem.name)) && ofProblem(problem).slice(0, MOST_FIRST_GROUPS).every(add));
  problems.every((problem) => ofProblem(problem).slice(MOST_FIRST_GROUPS).every(add));
  names.every((_, k) => shown.isFull(k) || shown.addRace(k));
  return { problems: shown.problems, groups: shown.groups, races: [...shown.races.values()].sort((a, b) => a[0] - b[0]) };
}

/**
 * The race of which the list has the words, if it is in the line of that problem.
 * @param {Listed} problem
 * @param {string[]} names by race
 */
const raceInWords = ({ name, first, worst }, names) => (worst !== undefined && names[worst] === name ? worst : first);

/**
 * All races in shares, by the name of the problem in whose line they are, and by group. The first share of a problem has the race that is shown first.
 * @param {import('../races/types').Race[]} races
 * @param {string[]} names by race
 * @param {Listed[]} problems
 * @param {number[]} leads the race that is shown for each group
 */
function sharesOf(races, names, problems, leads) {
  /** @type {Map<string, Map<number, Share>>} */
  const shares = new Map(problems.map(({ name }) => [name, new Map()]));
  const add = (/** @type {number} */ race, /** @type {number} */ size) => {
    const group = races[race].group - 1;
    const own = shares.get(names[race]);
    const share = own?.get(group);
    if (share) share.size += size;
    else own?.set(group, { group, size, race });
  };
  const firsts = problems.flatMap((problem) => [raceInWords(problem, names), problem.first]);
  [...firsts, ...leads].forEach((race) => add(race, 0));
  names.forEach((_, race) => add(race, 1));
  return shares;
}

class Shown {
  /**
   * @param {Model} model
   * @param {string[]} names by race, of the problem in whose line it is
   * @param {Listing} listing
   */
  constructor(model, names, listing) {
    this.model = model;
    this.names = names;
    this.listing = listing;
    /** @type {Map<string, number>} the index of a problem by its name */
    this.indices = new Map();
    /** @type {Map<number, import('./types').PackedRace>} by index */
    this.races = new Map();
    /** @type {Map<string, number>} how many races of a share are shown */
    this.counts = new Map();
    /** @type {import('./types').ShownProblem[]} */
    this.problems = [];
    /** @type {import('./types').ShownGroup[]} */
    this.groups = [];
  }

  /** @param {number} race */
  keyOf(race) {
    return `${this.model.report.races[race].group} ${this.names[race]}`;
  }

  /**
   * Whether so many races of its share are shown that a race is left out.
   * @param {number} race
   */
  isFull(race) {
    return (this.counts.get(this.keyOf(race)) || 0) >= MOST_OF_GROUP;
  }

  /**
   * Each `add..` returns whether there was room.
   * @param {Listed} problem
   * @param {Listed[]} [others] of its line, if it is the first one
   */
  addProblem(problem, others = []) {
    const { name, look, first } = problem;
    if (this.model.left <= 0) return false;
    this.indices.set(name, this.problems.length);
    const race = raceInWords(problem, this.names);
    [race, first].forEach((one) => this.addRace(one));
    const plain = { name, ...toldOf(this.listing, problem, others), first: race + 1, look: look.name, rank: look.rank };
    this.problems.push(plain);
    this.model.left -= sizeOf(plain);
    return true;
  }

  /**
   * Adds a group with its first race, if there is room for both.
   * @param {Share} share
   */
  addShare({ group, size, race }) {
    if (!this.addRace(race)) return false;
    const plain = { number: group + 1, race: race + 1, size, problem: this.indexOf(race) };
    this.groups.push(plain);
    this.model.left -= sizeOf(plain);
    return true;
  }

  /**
   * Puts a race into the model, as long as there is room for it. Whether it is there then.
   * @param {number} race
   */
  addRace(race) {
    if (this.races.has(race)) return true;
    if (this.model.left <= 0) return false;
    const packed = this.model.race(this.model.report.races[race], race, this.indexOf(race), this.listing);
    this.races.set(race, packed);
    this.counts.set(this.keyOf(race), (this.counts.get(this.keyOf(race)) || 0) + 1);
    this.model.left -= sizeOf(packed);
    return true;
  }

  /**
   * The index of the problem in whose line a race is; -1 if that is not shown.
   * @param {number} race
   */
  indexOf(race) {
    return this.indices.get(this.names[race]) ?? -1;
  }
}

module.exports = { choose };
