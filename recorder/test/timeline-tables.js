'use strict';
// What timeline.js found of a page as a line of JSON, and lines as tables: the kinds of calls into script, and the calls that are in no action.

const { told } = require('./corpus/tables.js');
const { tableOf } = require('./measured-pages.js');

/** @typedef {Awaited<ReturnType<typeof import('./timeline.js').compareTimeline>>} Compared */
/** @typedef {{kind: string, place: string, count: number}} MissingCalls */
/** @typedef {{name: string, kinds: {[kind: string]: {seen: number, missing: number}}, missing: MissingCalls[], losses: string[], failure?: string}} TimelineLine */

/** So many pages are named in a cell. */
const MOST_NAMES = 6;

/**
 * @param {Compared} compared
 * @returns {TimelineLine}
 */
function lineOf({ name, kinds, missing, losses }) {
  /** @type {Map<string, MissingCalls>} */
  const counts = new Map();
  for (const { kind, place } of missing) {
    const known = counts.get(`${kind}: ${place}`) || { kind, place, count: 0 };
    counts.set(`${kind}: ${place}`, { ...known, count: known.count + 1 });
  }
  const seen = [...kinds].map(([kind, one]) => [kind, { seen: one.seen, missing: one.missing.length }]);
  return { name, kinds: Object.fromEntries(seen), missing: [...counts.values()], losses };
}

/**
 * What was seen of a page, in words.
 * @param {TimelineLine} line
 */
const inWords = ({ kinds }) => Object.entries(kinds).map(([kind, { seen, missing }]) => `${kind} ${seen - missing} of ${seen}`).join('; ');

/** @param {string[]} names */
const named = (names) => `${names.slice(0, MOST_NAMES).join('; ')}${names.length > MOST_NAMES ? ` and ${names.length - MOST_NAMES} more` : ''}`;

/** @param {TimelineLine[]} lines */
function tableOfKinds(lines) {
  const kinds = [...new Set(lines.flatMap((one) => Object.keys(one.kinds)))].sort();
  const rows = kinds.map((kind) => {
    const counts = lines.map((one) => ({ name: told(one.name), ...one.kinds[kind] || { seen: 0, missing: 0 } }));
    const sum = (/** @type {(one: typeof counts[number]) => number} */ of) => counts.reduce((total, one) => total + of(one), 0);
    const lacking = counts.filter(({ missing }) => missing).map(({ name, missing }) => `${name} ${missing}`);
    return [kind, sum(({ seen }) => seen), sum(({ missing }) => missing), named(lacking)];
  });
  return tableOf(['What', 'Seen', 'Without its action', 'On'], rows);
}

/**
 * The tables of many pages: the kinds, and the calls of each page that are in no action.
 * @param {TimelineLine[]} lines
 */
function sumTables(lines) {
  const done = lines.filter(({ failure }) => failure === undefined);
  const rows = done.flatMap(({ name, missing }) => missing.map(({ kind, place, count }) => [told(name), kind, told(place), count]));
  const failed = lines.flatMap(({ name, failure }) => (failure === undefined ? [] : [`${told(name)} (${told(failure)})`]));
  return [
    `Of ${done.length} pages; with a call without its action: ${done.filter(({ missing }) => missing.length).length}.`,
    tableOfKinds(done),
    ...rows.length ? [tableOf(['Page', 'Without its action', 'Where', 'Count'], rows)] : [],
    ...failed.length ? [`Failed: ${failed.join('; ')}.`] : [],
  ].join('\n\n');
}

module.exports = { lineOf, inWords, tableOfKinds, sumTables };
