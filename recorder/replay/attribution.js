'use strict';
// From which race a difference comes, if several came in the other order in one run: the race whose two sides write what differs. What is not known stays with
// all of them. Attribution of effects.

const { splitBy } = require('./found/differences.js');

/** @typedef {import('./types').Difference} Difference */
/** @typedef {import('./types').Result} Result */
/** @typedef {import('./types').Turned} Turned */
/** @typedef {{number: number, result: Result}} Numbered the result of a race, by the race's number */

/** Differences that all others make too: they come from where these come. */
const OF_ALL = new Set(['picture', 'order of lines']);

/** @param {Difference} one */
const isEvent = ({ kind }) => kind === 'event';

/**
 * Whether a race's handler ran and only read, in each of the two runs in which it ran.
 * @param {Numbered} one
 */
const isReader = ({ number, result: { turned } }) => !!turned?.readers.includes(number);

/**
 * Whether a difference is at what both sides of the race write.
 * @param {Numbered} one
 */
const isProven = ({ number, result: { turned, differences = [] } }) => !!turned?.owners.some((owners, k) => owners.includes(number) && differences[k] && !isEvent(differences[k]));

/**
 * The other races from which a difference comes; none if it is the race's own, or if this is not known.
 * @param {Numbered} one
 * @param {number} k the index of the difference
 * @param {Map<number, Result>} results
 * @returns {number[]}
 */
function sourcesOf(one, k, results) {
  const { number, result: { turned, differences = [] } } = one;
  const owners = turned?.owners[k] || [];
  if (!turned || owners.includes(number)) return [];
  const isOnlyReader = isReader(one);
  if (isEvent(differences[k])) return isOnlyReader || isProven(one) ? owners : [];
  if (!isOnlyReader) return [];
  const canDo = (/** @type {number} */ other) => !turned.readers.includes(other) && !results.get(other)?.turned?.readers.includes(other);
  const others = owners.filter(canDo);
  return others.length ? others : turned.races.filter((other) => canDo(other) && differsToo(differences[k], results.get(other)));
}

/**
 * Whether the replay of another race has a difference too.
 * @param {Difference} difference
 * @param {Result|undefined} other
 */
const differsToo = (difference, other) => !!other && splitBy([difference], other.differences || []).like.length > 0;

/**
 * The sources of a race's differences. What all differences make comes from the sources of the others, if these have all.
 * @param {Numbered} one
 * @param {Map<number, Result>} results
 * @returns {number[][]} by difference
 */
function sourcesOfAll(one, results) {
  const { differences = [] } = one.result;
  const all = differences.map((_, k) => sourcesOf(one, k, results));
  const others = all.filter((_, k) => !isEvent(differences[k]) && !OF_ALL.has(differences[k].kind));
  if (!others.length || !others.every((some) => some.length)) return all;
  const union = [...new Set(others.flat())];
  return all.map((some, k) => (OF_ALL.has(differences[k].kind) ? union : some));
}

/**
 * Notes from which other races the differences of each race come. Called by replay-results.js, while races are replayed and at the end: what another race's replay
 * has is known only then.
 * @param {Numbered[]} all
 */
function attribute(all) {
  const results = new Map(all.map(({ number, result }) => [number, result]));
  for (const one of all) {
    const sources = sourcesOfAll(one, results);
    one.result.isReader = isReader(one);
    one.result.isProven = isProven(one);
    one.result.differences = one.result.differences?.map(({ from: _, ...difference }, k) => (sources[k].length ? { ...difference, from: sources[k] } : difference));
  }
}

/**
 * The differences that no other race makes, as far as is known. Called by verdict.js and sentence.js.
 * @param {{differences?: Difference[]}} result
 */
const ownOf = ({ differences = [] }) => differences.filter(({ from }) => !from);

/**
 * What the user of the page sees of other races. Called by verdict.js and sentence.js.
 * @param {{differences?: Difference[]}} result
 */
const ofOthers = ({ differences = [] }) => differences.filter((one) => one.from && !isEvent(one));

/**
 * Whether a race differs only since another one came in the other order too: of its own it has at most the event that its handler did not get. Called by
 * verdict.js and sentence.js.
 * @param {{differences?: Difference[]}} result
 */
const isOnlyOfOthers = (result) => ofOthers(result).length > 0 && ownOf(result).every(isEvent);

/**
 * Other races from which a part of what differs might come: those that came in another order and did not have to; if the race's handler only read, all. Called by
 * verdict.js and sentence.js.
 * @param {Result} result
 */
function suspectsOf(result) {
  const { astray = [], turned } = result;
  if (isOnlyOfOthers(result)) return [];
  const isOther = (/** @type {number} */ one) => !turned?.readers.includes(one);
  if (result.isReader && !ownOf(result).every(isEvent)) return turned?.races.filter(isOther) || [];
  return result.isProven ? astray.filter(isOther) : astray;
}

module.exports = { attribute, isOnlyOfOthers, ofOthers, ownOf, suspectsOf };
