'use strict';
// The words of a problem: its first race, and what else has the same two places.

const MOST_TOLD = 4;

/** @typedef {import('./types').Race} Race */

/** A part of `Problems`. */
class ProblemWords {
  /** @param {import('../races/words.js').Words} words @param {Race[]} races */
  constructor(words, races) {
    this.words = words;
    this.races = races;
    /** @type {Map<number, string>} */
    this.actions = new Map();
    /** @type {Map<string, string>} */
    this.locations = new Map();
  }

  /**
   * The words of a problem.
   * @param {{races: number[], sites: string[]}} problem @param {number} first the race that is shown
   * @param {(race: number) => string} siteOf the first side of a race
   */
  of(problem, first, siteOf) {
    const words = this.words.race(this.races[first]);
    const more = this.others(problem, first, siteOf);
    return more ? `${words} ${more}` : words;
  }

  /**
   * "6 such: the mousedown at a#link1, a#link6, ..": where the sides differ, else nothing.
   * @param {{races: number[], sites: string[]}} problem @param {number} first @param {(race: number) => string} siteOf
   */
  others({ races, sites: [one, two] }, first, siteOf) {
    if (races.length < 2) return '';
    /** @type {Set<string>[]} the locations, the first sides, the second sides */
    const [places, ...sides] = [new Set(), new Set(), new Set()];
    for (const race of [first, ...races]) {
      const { actions, location } = this.races[race];
      const isTurned = one !== two && siteOf(race) !== one;
      places.add(this.location(location));
      sides.forEach((side, k) => side.add(this.action(actions[isTurned ? 1 - k : k])));
    }
    const varied = [places, ...sides].map((some) => [...some]).filter((some) => some.length > 1).sort((a, b) => b.length - a.length)[0];
    return varied ? `${varied.length} such: ${listed(varied)}` : '';
  }

  /**
   * An action in words, made once.
   * @param {number} number
   */
  action(number) {
    let words = this.actions.get(number);
    if (words === undefined) this.actions.set(number, words = String(this.words.action(number)));
    return words;
  }

  /**
   * A location in words, made once.
   * @param {string} location
   */
  location(location) {
    let words = this.locations.get(location);
    if (words === undefined) this.locations.set(location, words = this.words.location(location).text);
    return words;
  }
}

/**
 * The first few of a list; the words with which all start and end are printed once. Called by problems.js.
 * @param {string[]} texts
 */
function listed(texts) {
  const some = texts.slice(0, MOST_TOLD).map((text) => text.split(' '));
  const shortest = Math.min(...some.map(({ length }) => length));
  const countCommon = (/** @type {(words: string[], k: number) => string} */ wordAt, /** @type {number} */ most) => {
    let count = 0;
    while (count < most && some.every((words) => wordAt(words, count) === wordAt(some[0], count))) count++;
    return count;
  };
  const start = countCommon((words, k) => words[k], shortest - 1);
  const end = countCommon((words, k) => words[words.length - 1 - k], shortest - 1 - start);
  const middles = some.map((words) => words.slice(start, words.length - end).join(' '));
  const comma = middles.every((middle) => middle.endsWith(',')) ? ',' : '';
  const middle = middles.map((one) => (comma ? one.slice(0, -1) : one)).join(', ') + (texts.length > MOST_TOLD ? ', ..' : '') + comma;
  const told = [...some[0].slice(0, start), middle, ...some[0].slice(some[0].length - end)].join(' ');
  return told.endsWith('..') ? told : `${told}.`;
}

module.exports = { ProblemWords, listed };
