'use strict';
// The lines of the list in the view: the same problems, in the same order and sections.

/**
 * @typedef {import('../list/listing.js').Listing} Listing
 * @typedef {import('./types').ShownLine} ShownLine
 * @typedef {import('./types').ShownProblem} ShownProblem
 */

/**
 * What the list says of a problem. Called by choice.js.
 * @param {Listing} listing
 * @param {import('../list/listing.js').Listed} problem
 * @param {import('../list/listing.js').Listed[]} others of its line, if it is the first one
 * @returns {Pick<ShownProblem, 'place'|'sentence'|'sides'|'details'>}
 */
function toldOf(listing, problem, others) {
  const { place, sentence, sides, details } = listing.entryOf(problem, others);
  return { place, sentence, details, sides: sides.map((side) => [side.verb, side.what, side.place, [side.actor, side.also].filter(Boolean).join(' ')]) };
}

/**
 * How many problems there are, in how many lines, if these are fewer, and how many known ones. Called by model.js.
 * @param {{isKnown: boolean, problems: unknown[]}[]} lines
 * @returns {{problems: number, entries?: number, known?: number}}
 */
function countsOf(lines) {
  const fresh = lines.filter(({ isKnown }) => !isKnown);
  const known = lines.length - fresh.length;
  const problems = fresh.reduce((sum, line) => sum + line.problems.length, 0);
  return { problems, ...(problems > fresh.length ? { entries: fresh.length } : {}), ...(known ? { known } : {}) };
}

/**
 * The lines of what is not known. Called by html.js.
 * @param {{problems: number, entries?: number}} counts
 */
const entriesOf = ({ problems, entries = problems }) => entries;

/**
 * The lines of which the view has a problem. Called by model.js.
 * @param {Listing} listing
 * @param {ShownProblem[]} problems
 * @returns {ShownLine[]}
 */
function linesOf(listing, problems) {
  const indices = new Map(problems.map(({ name }, k) => [name, k]));
  const lines = listing.inOrder().map((line) => ({ ...line, problems: line.problems.flatMap(({ name }) => indices.get(name) ?? []) }));
  return lines.filter((line) => line.problems.length);
}

/**
 * A model with the lines of the list as that is after replays, which move problems and add what they found. The list can be one of several runs; the model is
 * that of the first. Called by replay-results.js.
 * @template {Pick<import('./types').ViewModel, 'totals'|'problems'|'listed'>} M
 * @param {M} model
 * @param {Listing} listing
 * @returns {M}
 */
function arranged(model, listing) {
  const listed = linesOf(listing, model.problems);
  const shown = countsOf(model.listed);
  const counts = countsOf(listed);
  const problems = counts.problems + model.totals.problems - shown.problems;
  const entries = entriesOf(counts) + entriesOf(model.totals) - entriesOf(shown);
  const { groups, races } = model.totals;
  const byName = new Map(listing.problems.map((one) => [one.name, one]));
  const othersOf = new Map(listing.told().map(({ line, others }) => [line.name, others]));
  const detailed = model.problems.map((one) => ({ ...one, details: detailsOf(listing, byName.get(one.name), othersOf.get(one.name) || [], one) }));
  return { ...model, problems: detailed, listed, totals: { problems, ...(entries < problems ? { entries } : {}), ...(counts.known ? { known: counts.known } : {}), groups, races } };
}

/**
 * What is known of a problem besides its sides, after replays. Places stay as the model has them: the list has those of files as paths.
 * @param {Listing} listing
 * @param {import('../list/listing.js').Listed|undefined} problem
 * @param {import('../list/listing.js').Listed[]} others those of its line
 * @param {ShownProblem} shown
 */
function detailsOf(listing, problem, others, { details }) {
  const isOfPlace = (/** @type {string[]} */ [label]) => label === 'cause';
  return problem ? [...details.filter(isOfPlace), ...listing.entries.details(problem, others).filter((one) => !isOfPlace(one))] : details;
}

module.exports = { arranged, countsOf, entriesOf, linesOf, toldOf };
