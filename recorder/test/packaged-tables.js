'use strict';
// What packaged-names.js measured, as the two tables of docs/evaluation-tables.md, "What the list is worth".

const { LOOKS } = require('../list/patterns/table.js');

/**
 * Counts of the races, groups, problems and lines of a page; sides by their place; names that were equal in two recordings, of all.
 * @typedef {{page: string, races: number, groups: number, problems: number, lines: number, lost: number, places: Counts, firsts: Counts,
 *   ofProblems: Equal, ofRaces: Equal}} Sums
 * @typedef {Sums & {looks: Counts}} Measure
 * @typedef {{[kind: string]: number}} Counts
 * @typedef {{equal: number, all: number}} Equal
 */

const HEAD = ['Page', 'Races', 'Groups', 'Problems', 'Lines', 'Sides with a place outside of libraries', "Problems' names equal", "Races' names equal"];
const HEAD_OF_LOOKS = ['Looks like', 'Problems', 'Of'];
/** @type {('races'|'groups'|'problems'|'lines')[]} */
const COUNTS = ['races', 'groups', 'problems', 'lines'];
/**
 * @param {number} part
 * @param {number} all
 */
const percent = (part, all) => `${all ? Math.round((100 * part) / all) : 0} %`;
/** @param {Equal} names */
const of = ({ equal, all }) => `${equal} of ${all}`;
/** @param {(string|number)[]} cells */
const row = (cells) => `| ${cells.join(' | ')} |`;
/**
 * @template T
 * @param {T[]} measures
 * @param {(one: T) => number} what
 */
const sumOf = (measures, what) => measures.reduce((total, one) => total + what(one), 0);

/**
 * The measures of several pages as those of one.
 * @param {Measure[]} measures
 * @returns {Sums}
 */
function together(measures) {
  const sums = (/** @type {'places'|'firsts'} */ name, /** @type {string[]} */ kinds) => Object.fromEntries(kinds.map((kind) => [kind, sumOf(measures, (one) => one[name][kind])]));
  const equal = (/** @type {'ofProblems'|'ofRaces'} */ name) => ({ equal: sumOf(measures, (one) => one[name].equal), all: sumOf(measures, (one) => one[name].all) });
  return {
    page: 'together',
    races: sumOf(measures, (one) => one.races),
    groups: sumOf(measures, (one) => one.groups),
    problems: sumOf(measures, (one) => one.problems),
    lines: sumOf(measures, (one) => one.lines),
    lost: sumOf(measures, (one) => one.lost),
    places: sums('places', ['own', 'library', 'none', 'access', 'byWay']),
    firsts: sums('firsts', ['own', 'all']),
    ofProblems: equal('ofProblems'),
    ofRaces: equal('ofRaces'),
  };
}

/** @param {Sums} sums */
function rowOfPage({ page, places, ofProblems, ofRaces, ...counts }) {
  const all = places.own + places.library + places.none;
  return row([page, ...COUNTS.map((name) => counts[name]), `${percent(places.own, all)} (${percent(places.access, all)})`, of(ofProblems), of(ofRaces)]);
}

/**
 * A pattern with how many problems have it, and of which pages.
 * @param {string} name
 * @param {Measure[]} measures
 */
function rowOfLook(name, measures) {
  const known = measures.filter(({ looks }) => looks[name]).sort((a, b) => b.looks[name] - a.looks[name]);
  return row([`\`${name}\``, sumOf(known, ({ looks }) => looks[name]), known.map(({ page, looks }) => `${page} ${looks[name]}`).join(', ')]);
}

/**
 * @param {Measure[]} measures those of each page
 * @param {string} recorded how they were recorded
 */
function tablesOf(measures, recorded) {
  const racy = measures.filter(({ ofProblems }) => ofProblems.all);
  const all = together(racy);
  const looks = Object.values(LOOKS).map(({ name }) => name).filter((name) => racy.some((one) => one.looks[name]));
  const { own, library, none } = all.places;
  const others = measures.filter((one) => !racy.includes(one)).map(({ page }) => page).join(', ') || 'none';
  return [
    [row(HEAD), `|${'---|'.repeat(HEAD.length)}`, ...[...racy, all].map(rowOfPage)].join('\n'),
    `${recorded} Of the sides of the races by which problems are told, ${percent(all.firsts.own, all.firsts.all)} have a place outside of libraries. Sides of races without any place: ${percent(none, own + library + none)}. Problems that came in each recording by their words, and have another name: ${all.lost}. No race: ${others}.`,
    [row(HEAD_OF_LOOKS), `|${'---|'.repeat(HEAD_OF_LOOKS.length)}`, ...looks.map((name) => rowOfLook(name, racy))].join('\n'),
  ];
}

/**
 * A document with these tables in the place of its own, which begin with the same line; and with the sentences between them.
 * @param {string} text
 * @param {string[]} tables
 */
function withTables(text, [pages, sentences, looks]) {
  const renewed = [pages, looks].reduce((document, table) => {
    const begin = document.indexOf(table.slice(0, table.indexOf('\n') + 1));
    if (begin < 0) throw new Error(`no such table: ${table.split('\n')[0]}`);
    return document.slice(0, begin) + table + document.slice(document.indexOf('\n\n', begin));
  }, text);
  return renewed.replace(/^Recorded .*No race: .*$/m, () => sentences);
}

module.exports = { tablesOf, withTables };
