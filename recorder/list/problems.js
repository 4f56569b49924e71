'use strict';
// Problems of one recording: the races of one key (`nameRace` in lasting.js: location and both places) are one. Each race is in exactly one problem. Duplicates
// are merged (deduplicated) into one entry. Its pattern, as `same value`: looks.js.

const { isOfTree } = require('../races/spelled-locations.js');
const { LastingNames } = require('./lasting.js');
const { Looks } = require('./looks.js');
const { isHarm, isAlwaysTold, isRather, isWorse } = require('./patterns/table.js');
const { ProblemWords, listed } = require('./problem-words.js');

/**
 * @typedef {import('./types').Race} Race
 * @typedef {import('./patterns/table.js').Look} Look
 * @typedef {ReturnType<LastingNames['nameRace']> & {look: Look}} NamedRace
 */
/**
 * `races` and `groups` are indices in the report: all races of the problem, and the groups whose first race is one of them. `first` is the race that is
 * shown; `isTold`, whether it has a line of its own although another line covers it; `worst`, the race that it covers and of which it has the pattern.
 * @typedef {{name: string, races: number[], groups: number[], look: Look, sites: string[], first: number, words: string, isTold?: boolean, worst?: number}} Problem
 * @typedef {Omit<Problem, 'first'|'words'>} Folded
 */

/** Locations that many writes change in parts. */
const IN_PARTS = / (?:\([a-z]+\)|content|style|class|length)$/;

/** So many races of a problem are looked through for the places that most of them have. */
const MOST_RACES = 500;

/** Made by view.js for each analyzed trace. */
class Problems {
  /**
   * @param {string} text the trace
   * @param {import('./types').Names} names
   * @param {import('./types').Report} report
   */
  constructor(text, names, report) {
    this.report = report;
    this.names = names;
    this.lasting = new LastingNames(text, names);
    this.words = this.lasting.words;
    this.inWords = new ProblemWords(this.words, report.races);
    const looks = new Looks(report, names, this.words);
    this.userActs = looks.userActs;
    this.accesses = looks.accesses;
    this.ended = looks.ended;
    /** @type {NamedRace[]} */
    this.ofRaces = report.races.map((race) => Object.assign(this.lasting.nameRace(race), { look: looks.look(race) }));
    /** The race that is shown for each group; both from 0, unlike in the report. */
    this.leads = report.groups.map(({ race }) => race - 1);
    report.races.forEach((race, k) => this.mayLead(race, k));
    this.list = this.fold();
    /** How many races each problem has, by its name. */
    this.counts = new Map(this.list.map(({ name, races }) => [name, races.length]));
    this.covered = this.countCovered();
    /** What was left out of the trace since the program cannot take it. */
    this.leftOut = (names.leftOut || []).map(({ location, accesses, pairs }) => ({ location, words: `"${this.words.location(location).text}"`, accesses, pairs }));
    /** What only libraries touch, counted: it is left out of the trace. */
    this.ofLibraries = names.ofLibraries || null;
    /** What the recording lacks of what was to be recorded, in words. */
    this.notComplete = names.notComplete || [];
    /** The scripts and handler attributes that were recorded without marks, and why. */
    this.unmarked = names.unmarked || [];
  }

  /**
   * Merges the races with one name into one problem, and sorts these by their patterns.
   * @returns {Problem[]}
   */
  fold() {
    /** @type {Map<string, Folded>} */
    const problems = new Map();
    this.ofRaces.forEach(({ problem, look, sites }, k) => {
      let one = problems.get(problem);
      if (!one) problems.set(problem, one = { name: problem, races: [], groups: [], look, sites });
      one.races.push(k);
      if (isRather(look, one.look)) one.look = look;
    });
    this.leads.forEach((race, k) => problems.get(this.ofRaces[race].problem)?.groups.push(k));
    const list = [...problems.values()].map((one) => this.complete(one));
    this.lookAtCovered(list);
    return list.sort((a, b) => a.look.rank - b.look.rank || a.races[0] - b.races[0]);
  }

  /**
   * Of a group's first pair of actions the race is shown that has the most places in the page's own code, and is at a variable rather than at what the
   * page shows of it; unless the first one does harm.
   * @param {Race} race @param {number} k
   */
  mayLead(race, k) {
    const group = race.group - 1;
    const lead = this.leads[group];
    if (!this.isOnePair(lead, k) || this.distance(race) >= this.distance(this.report.races[lead])) return;
    const { look } = this.ofRaces[this.report.groups[group].race - 1];
    if (!isHarm(look) || this.ofRaces[k].look.rank <= look.rank) this.leads[group] = k;
  }

  /**
   * Whether two races are of one group and of the same two actions.
   * @param {number} race @param {number} other
   */
  isOnePair(race, other) {
    const [a, b] = [this.report.races[race], this.report.races[other]];
    return a.group === b.group && a.actions[0] === b.actions[0] && a.actions[1] === b.actions[1];
  }

  /**
   * How many of the two places are not known, or in a library; and whether the race is at the page's tree.
   * @param {Race} race
   */
  distance({ lines, location }) {
    const foreign = lines.map((line) => this.words.placeOfLine(line)).filter((place) => !place || this.names.files[place[0]].isLibrary).length;
    return 2 * foreign + Number(isOfTree(location));
  }

  /**
   * The race that is shown has the problem's pattern, which its sentence says: that of a group, if it has it, one of the same two actions, or another one. Of
   * overwriting replies, it is a race of one callback, if there is one.
   * @param {Folded} problem @returns {Problem}
   */
  complete(problem) {
    const leads = problem.groups.map((group) => this.leads[group]);
    const ofGroup = new Map(leads.map((lead) => [this.report.races[lead].group, lead]));
    const isBeside = (/** @type {number} */ race) => {
      const lead = ofGroup.get(this.report.races[race].group);
      return lead !== undefined && this.isOnePair(lead, race);
    };
    const isLike = (/** @type {number} */ race) => isAlike(this.ofRaces[race].look, problem.look);
    const isOfOne = (/** @type {number} */ race) => problem.look.look === 'replies' && isLike(race) && this.isOneCallback(this.report.races[race]);
    const likely = leads.find(isOfOne) ?? problem.races.slice(0, MOST_RACES).find(isOfOne);
    const first = likely ?? mostUsual(leads.filter(isLike), problem.races, (race) => this.placesOf(race)) ?? problem.races.find((race) => isLike(race) && isBeside(race)) ?? problem.races.find(isLike) ?? leads[0] ?? problem.races[0];
    const group = this.report.races[first].group - 1;
    if (problem.groups.includes(group)) this.leads[group] = first;
    const look = isLike(first) ? this.ofRaces[first].look : problem.look;
    return { ...problem, look, first, words: this.inWords.of(problem, first, (race) => this.ofRaces[race].sites[0]) };
  }

  /**
   * The two places to look at for a race, whichever comes first.
   * @param {number} race
   */
  placesOf(race) {
    const { lines, actions } = this.report.races[race];
    return lines.map((line, k) => String(this.words.placeOfAccess(line, actions[k]))).sort().join(' ');
  }

  /**
   * What is lost has a line of its own if the line of its group has another pattern: the first problem of each such pattern. Otherwise a line has the
   * pattern of the worst race that it covers; the words of that race come after its own, and its name stays.
   * @param {Problem[]} list
   */
  lookAtCovered(list) {
    const byName = new Map(list.map((one) => [one.name, one]));
    const problemOf = (/** @type {number} */ race) => /** @type {Problem} */ (byName.get(this.ofRaces[race].problem));
    /** @type {number[][]} */
    const races = this.report.groups.map(() => []);
    this.report.races.forEach(({ group }, k) => races[group - 1].push(k));
    races.forEach((ofGroup, group) => tellApart(new Set(ofGroup.map(problemOf)), problemOf(this.leads[group])));
    for (const one of list.filter(({ groups }) => groups.length)) {
      const covered = one.groups.flatMap((group) => races[group]).filter((race) => !hasLine(problemOf(race)) && !isAlwaysTold(this.ofRaces[race].look));
      this.lookAs(one, this.worstOf(covered));
    }
  }

  /**
   * The first race of the worst pattern.
   * @param {number[]} races @returns {number|undefined}
   */
  worstOf(races) {
    /** @type {number|undefined} */
    let worst;
    for (const race of races) {
      if (worst === undefined || isWorse(this.ofRaces[race].look, this.ofRaces[worst].look)) worst = race;
    }
    return worst;
  }

  /**
   * A problem has the pattern of a race that it covers, if that is worse.
   * @param {Problem} one
   * @param {number|undefined} race
   */
  lookAs(one, race) {
    if (race === undefined || !isWorse(this.ofRaces[race].look, one.look)) return;
    const { look } = this.ofRaces[race];
    const covered = `and covered by it, ${look.seen ? `${look.seen}: ` : ''}${this.words.race(this.report.races[race])}`;
    one.look = { ...look, seen: [one.look.seen, covered].filter(Boolean).join('; ') };
    one.worst = race;
  }

  /**
   * Whether each side of a race writes all of a thing: an element's content, a set of keys or a number of items keeps a part of what was there, and two
   * elements can have one id. Called by sides.js and race-facts.js.
   * @param {Race} race
   */
  isReplaced(race) {
    const { location, lines, actions } = race;
    return this.isWhole(race) && lines.every((line, k) => !this.accesses.isUpdate(line, actions[k], location));
  }

  /**
   * Whether both sides of a race write a thing that has no parts. Called by other-order.js and race-facts.js.
   * @param {Pick<Race, 'location'|'modes'>} race
   */
  isWhole({ location, modes }) {
    return modes === 'ww' && location.startsWith('var ') && !IN_PARTS.test(location);
  }

  /**
   * Whether the two sides of a race are runs of one callback, by the places to look at. Called by race-facts.js.
   * @param {Race} race
   */
  isOneCallback({ lines, actions }) {
    const [one, other] = lines.map((line, k) => String(this.words.placeOfAccess(line, actions[k])));
    return one === other;
  }

  /**
   * How many races of problems without a line each other problem covers: by its name, and by theirs.
   * @returns {Map<string, Map<string, number>>}
   */
  countCovered() {
    const withLine = new Set(this.lines().map(({ name }) => name));
    /** @type {Map<string, Map<string, number>>} */
    const covered = new Map();
    this.report.races.forEach(({ group }, k) => {
      const { problem } = this.ofRaces[k];
      if (withLine.has(problem)) return;
      const lead = this.ofRaces[this.leads[group - 1]].problem;
      const counts = covered.get(lead) || new Map();
      covered.set(lead, counts.set(problem, (counts.get(problem) || 0) + 1));
    });
    return covered;
  }

  /** The problems with a line of their own: those that have the first race of a group, and what is lost and covered by it. */
  lines() {
    return this.list.filter(hasLine);
  }
}

/**
 * Whether two patterns differ at most in the order that the recording had.
 * @param {Look} one @param {Look} other
 */
const isAlike = (one, other) => one.look === other.look && one.detail === other.detail && one.isUnchanged === other.isUnchanged && one.isIdle === other.isIdle && one.link === other.link;

/**
 * The first of some races that has the places which most races have: calls of a library come from several places of the page's own code.
 * @param {number[]} some @param {number[]} races @param {(race: number) => string} placesOf
 * @returns {number|undefined}
 */
function mostUsual(some, races, placesOf) {
  if (some.length < 2) return some[0];
  /** @type {Map<string, number>} */
  const counts = new Map();
  for (const key of races.slice(0, MOST_RACES).map(placesOf)) counts.set(key, (counts.get(key) || 0) + 1);
  const sizes = some.slice(0, MOST_RACES).map((race) => counts.get(placesOf(race)) || 0);
  return some[sizes.indexOf(Math.max(...sizes))];
}

/**
 * Gives a line to problems of one group, beside the one that has its line.
 * @param {Set<Problem>} problems @param {Problem} line
 */
function tellApart(problems, line) {
  const told = new Set([...problems].filter(hasLine).map(({ look }) => look.look).concat(line.look.look));
  for (const one of problems) {
    if (!isAlwaysTold(one.look) || told.has(one.look.look)) continue;
    told.add(one.look.look);
    one.isTold = true;
  }
}

/**
 * Called by listing.js.
 * @param {{groups: number[], isTold?: boolean}} problem
 */
const hasLine = ({ groups, isTold }) => groups.length > 0 || !!isTold;

module.exports = { Problems, listed, hasLine };
