'use strict';
// The facts of a page load that a list over many loads needs, once its view is written: small, and without the load's texts. Texts are shared by all loads.

const { Listing } = require('./listing.js');
const { placesOf } = require('./places.js');

/**
 * @typedef {import('./problems.js').Problems} Problems
 * @typedef {import('./problems.js').Problem} Problem
 * @typedef {import('./types').Race} Race
 * @typedef {import('./types').Place} Place
 */
/**
 * A race in words, with its places: for the races that an output shows.
 * @typedef {{words: string, location: [spelled: string, words: string], actions: {[number: number]: string}, places: {[access: string]: Place|null}, functions: {[place: string]: string}}} Shown
 */
/**
 * What the list says of a problem: its sentence and sides, what else has their places, the sentence of its cause, if it has the pattern of another race, and whether
 * replies came in both orders.
 * @typedef {{told: import('./sides.js').Told, alsos: string[], cause: import('./sides.js').Told|null, hasBoth: boolean}} Said
 */
/**
 * The races of a load by the numbers that they have here.
 * @typedef {Map<number, number>} Numbers
 */

/** @param {Place} place */
const keyOf = (place) => place.join(' ');
/** @param {number} line @param {number} action */
const accessOf = (line, action) => `${line} ${action}`;

/**
 * What is stored of a load: plain data, which another process can send. `counts` and `covered` have numbers of races, as in `Problems`; `shown` is by the
 * accesses of the race, `said` by the name of the problem.
 * @typedef {{report: {races: Race[], groups: {race: number, size: number}[]}, ofRaces: NamedRace[], leads: number[], list: Problem[], counts: Map<string, number>,
 *   covered: Problems['covered'], leftOut: Problems['leftOut'], ofLibraries: Problems['ofLibraries'], notComplete: string[], unmarked: Problems['unmarked'], shown: Map<string, Shown>,
 *   said: Map<string, Said>, names: {files: {address: string}[], documents: {0: {address: string}}, page: string}}} LoadFacts
 * @typedef {{name: string, problem: string, order: number, ownOrder: number, look: Problem['look']}} NamedRace
 */

/** The load in the place of `Problems`: it has the members that `Listing`, JSON, SARIF and JUnit read. */
class LoadRun {
  /** @param {LoadFacts} facts */
  constructor({ report, ofRaces, leads, list, counts, covered, leftOut, ofLibraries, notComplete, unmarked, shown, said, names }) {
    this.report = report;
    this.ofRaces = ofRaces;
    this.leads = leads;
    this.list = list;
    this.counts = counts;
    this.covered = covered;
    this.leftOut = leftOut;
    this.ofLibraries = ofLibraries;
    this.notComplete = notComplete;
    this.unmarked = unmarked;
    this.shown = shown;
    this.said = said;
    this.names = names;
    this.words = wordsOf(shown);
  }
}

/**
 * @param {Problems} problems
 * @param {Set<string>} named
 * @param {(text: string) => string} copy
 * @returns {Map<string, Said>} by the name of the problem
 */
function saidOf(problems, named, copy) {
  const { entries, problems: list } = new Listing([problems], null);
  return new Map(list.filter(({ name }) => named.has(name)).map((one) => {
    const cause = one.worst === undefined ? null : entries.sidesOf(0).of(one.first, problems.ofRaces[one.first].look.look);
    const alsos = one.worst === undefined ? entries.alsoOf(one) : [];
    return [copy(one.name), JSON.parse(JSON.stringify({ told: entries.toldOf(one), alsos, cause, hasBoth: entries.hasBothReplies(one) }))];
  }));
}

/**
 * What other modules ask `Problems.words`, for the races that are shown.
 * @param {Map<string, Shown>} shown
 */
function wordsOf(shown) {
  /** @type {Map<string, Place|null>} */
  const places = new Map();
  /** @type {Map<string, string>} */
  const functions = new Map();
  /** @type {Map<number, string>} */
  const actions = new Map();
  const locations = new Map([...shown.values()].map(({ location }) => location));
  for (const one of shown.values()) {
    Object.entries(one.places).forEach(([access, place]) => places.set(access, place));
    Object.entries(one.functions).forEach(([place, name]) => functions.set(place, name));
    Object.entries(one.actions).forEach(([action, words]) => actions.set(Number(action), words));
  }
  return {
    race: (/** @type {Race} */ { lines }) => shown.get(lines.join(' '))?.words || '',
    location: (/** @type {string} */ spelled) => ({ text: locations.get(spelled) || '' }),
    action: (/** @type {number} */ number) => actions.get(number) || '',
    placeOfAccess: (/** @type {number} */ line, /** @type {number} */ action) => places.get(accessOf(line, action)) || null,
    sources: { functionAt: (/** @type {Place} */ place) => functions.get(keyOf(place)) },
  };
}

/**
 * The words and places of a race, as a list shows them without the load's texts.
 * @param {Problems} problems
 * @param {number} race
 * @param {(text: string) => string} copy
 * @returns {Shown}
 */
function shownOf(problems, race, copy) {
  const { report, words } = problems;
  const one = report.races[race];
  /** @type {Shown} */
  const shown = { words: copy(words.race(one)), location: [copy(one.location), copy(words.location(one.location).text)], actions: {}, places: {}, functions: {} };
  placesOf(problems, race).forEach((place, k) => {
    shown.actions[one.actions[k]] = copy(String(words.action(one.actions[k])));
    shown.places[accessOf(one.lines[k], one.actions[k])] = place;
    const name = place && words.sources.functionAt(place);
    if (place && name) shown.functions[keyOf(place)] = copy(name);
  });
  return shown;
}

/** Makes the runs of a list: what several loads have in common is stored once. Made by load-judge.js and loads.js. */
class LoadRuns {
  /** @param {boolean} isWhole whether each race of each load is shown, as in JSON; otherwise only the first race of each problem */
  constructor(isWhole) {
    this.isWhole = isWhole;
    /** @type {Map<string, string>} */
    this.texts = new Map();
    /** @type {Map<string, Problem['look']>} */
    this.looks = new Map();
    /** @type {Set<Problem['look']>} the values of these */
    this.sharedLooks = new Set();
    /** @type {Set<string>} the problems of the loads so far */
    this.seen = new Set();
  }

  /**
   * A text of its own: a part of another text would keep that whole.
   * @param {string} text
   * @returns {string}
   */
  copy(text) {
    const known = this.texts.get(text);
    if (known !== undefined) return known;
    /** @type {string} */
    const own = JSON.parse(JSON.stringify(text));
    this.texts.set(own, own);
    return own;
  }

  /**
   * A pattern with its words, one object for equal ones.
   * @param {Problem['look']} look
   */
  look(look) {
    const key = JSON.stringify(look);
    const known = this.looks.get(key);
    if (known) return known;
    /** @type {Problem['look']} */
    const own = JSON.parse(key);
    this.looks.set(key, own);
    this.sharedLooks.add(own);
    return own;
  }

  /**
   * A problem without the texts of its load.
   * @param {Problem} problem
   * @param {Numbers} numbers
   * @returns {Problem}
   */
  problem({ name, races, groups, look, sites, first, words, isTold, worst }, numbers) {
    const own = this.look(look);
    const kept = races.flatMap((race) => numbers.get(race) ?? []);
    const copies = { name: this.copy(name), sites: sites.map((site) => this.copy(site)), words: this.copy(words) };
    return { ...copies, races: kept, groups, look: own, first: numbers.get(first) ?? 0, isTold, ...worst === undefined ? {} : { worst: numbers.get(worst) ?? 0 } };
  }

  /**
   * The load's facts. The next load has nothing in words of which this one has.
   * @param {Problems} problems
   * @returns {LoadFacts}
   */
  factsOf(problems) {
    const fresh = problems.list.filter(({ name }) => !this.seen.has(name));
    problems.list.forEach(({ name }) => this.seen.add(this.copy(name)));
    const all = problems.ofRaces.map((_, k) => k);
    const kept = this.isWhole ? all : racesOf(problems);
    return this.storedOf(problems, kept, this.isWhole ? all : fresh.map(({ first }) => first), new Set(fresh.map(({ name }) => name)));
  }

  /**
   * What a list over many loads keeps of one, as a plain value that another process can send.
   * @param {Problems} problems
   * @param {number[]} kept the races that stay, in ascending order
   * @param {number[]} inWords those of them that are shown in words
   * @param {Set<string>} named the problems that no earlier load has
   * @returns {LoadFacts}
   */
  storedOf(problems, kept, inWords, named) {
    const { report, ofRaces, leads, list, counts, covered, names, leftOut, ofLibraries, notComplete, unmarked } = problems;
    const copy = (/** @type {string} */ text) => this.copy(text);
    /** @type {Numbers} */
    const numbers = new Map(kept.map((race, k) => [race, k]));
    const numberOf = (/** @type {number} */ race) => numbers.get(race) ?? 0;
    const page = names.documents['0']?.address || names.page || '';
    return {
      report: {
        races: kept.map((race) => ({ ...report.races[race], location: copy(report.races[race].location), modes: copy(report.races[race].modes) })),
        groups: report.groups.map(({ race, size }) => ({ race: numberOf(race - 1) + 1, size })),
      },
      ofRaces: kept.map((race) => {
        const { name, problem, order, ownOrder, look } = ofRaces[race];
        return { name: copy(name), problem: copy(problem), order, ownOrder, look: this.look(look) };
      }),
      leads: leads.map(numberOf),
      list: list.map((one) => this.problem(one, numbers)),
      counts: this.shared(counts),
      covered: this.shared(covered),
      leftOut,
      ofLibraries,
      notComplete: notComplete.map(copy),
      unmarked,
      shown: new Map([...new Set(inWords)].map((race) => [report.races[race].lines.join(' '), shownOf(problems, race, copy)])),
      said: saidOf(problems, named, copy),
      names: { files: names.files.map(({ address }) => ({ address: copy(address) })), documents: { 0: { address: copy(page) } }, page: copy(page) },
    };
  }

  /** @param {Problems} problems */
  add(problems) {
    return new LoadRun(this.factsOf(problems));
  }

  /**
   * A load of which another process has stored the facts. Of a problem that an earlier load has, what is said is not kept.
   * @param {LoadFacts} facts
   */
  take(facts) {
    const said = new Map([...facts.said].filter(([name]) => !this.seen.has(name)));
    const isFresh = (/** @type {number} */ race) => this.isWhole || !this.seen.has(facts.ofRaces[race].problem);
    const shown = new Map(facts.report.races.flatMap(({ lines }, race) => {
      const one = isFresh(race) && facts.shown.get(lines.join(' '));
      return one ? [[lines.join(' '), one]] : [];
    }));
    facts.list.forEach(({ name }) => this.seen.add(this.copy(name)));
    for (const one of [...facts.ofRaces, ...facts.list]) one.look = this.look(one.look);
    return new LoadRun(this.shared({ ...facts, said, shown }));
  }

  /**
   * Data with each text stored once.
   * @template T
   * @param {T} data
   * @returns {T}
   */
  shared(data) {
    /** @type {(value: any) => any} whatever the data has */
    const share = (value) => {
      if (typeof value === 'string') return this.copy(value);
      if (!value || typeof value !== 'object' || this.sharedLooks.has(value)) return value;
      if (Array.isArray(value)) return value.map(share);
      if (value instanceof Map) return new Map([...value].map(([key, one]) => [share(key), share(one)]));
      return Object.fromEntries(Object.entries(value).map(([key, one]) => [key, share(one)]));
    };
    return share(data);
  }
}

/**
 * The races that a list needs: those that are shown, and one for each name, order and group's problem.
 * @param {Problems} problems
 */
function racesOf({ report, ofRaces, leads, list }) {
  const kept = new Set([...leads, ...list.flatMap(({ first, races }) => [first, races[0]])]);
  /** @type {Set<string>} */
  const known = new Set();
  report.races.forEach(({ group }, race) => {
    const { name, order, ownOrder } = ofRaces[race];
    const key = `${name} ${order} ${ownOrder} ${ofRaces[leads[group - 1]].problem}`;
    if (known.has(key)) return;
    known.add(key);
    kept.add(race);
  });
  return [...kept].sort((a, b) => a - b);
}

module.exports = { LoadRuns, LoadRun };
