'use strict';
// The judged problems of documentation pages and of web applications, the lists that they were drawn from, and their shares of harm.

const fs = require('node:fs');
const path = require('node:path');
const { LOOKS, RANKS, detailOf, lookOf } = require('../../list/patterns/table.js');
const { kindOf } = require('../../list/rank.js');
const { linesOf, STORED } = require('../applications/lines.js');

/** @typedef {{page: string, name: string, judgement: string}} Judged `page` is its address, or the application's name */
/** @typedef {{name: string, verdict: string, effect?: string, words: string}} Replayed */
/** @typedef {{name: string, look: import('../../list/patterns/table.js').Look}} Problem */
/** @typedef {{problems: Problem[], replays: Replayed[]}} ListOfPage */
/** @typedef {{name: string, look: string, words: string}} Written a problem as the files have it */

const HARMFUL = 'harmful';
const HERE = __dirname;
const APPLICATIONS = path.join(__dirname, '..', 'applications');

/** @param {string} folder @param {string} name */
const read = (folder, name) => JSON.parse(fs.readFileSync(path.join(folder, name), 'utf8'));

/**
 * The judged problems of one of the two sets.
 * @param {'pages'|'applications'} set
 * @returns {Judged[]}
 */
function judgedOf(set) {
  /** @type {{problems: {page?: string, application?: string, name: string, judgement: string}[]}} */
  const { problems } = read(set === 'pages' ? HERE : APPLICATIONS, 'judgements.json');
  return problems.filter(({ judgement }) => judgement).map(({ page, application, name, judgement }) => ({ page: page || application || '', name, judgement }));
}

/** @param {Written} problem @returns {Problem} */
function problemOf({ name, look: written, words }) {
  const look = RANKS.find((key) => LOOKS[key].name === written) || 'other';
  const [, event = ''] = /^The handler "(\S+) of /.exec(words) || [];
  return { name, look: lookOf(look, '', detailOf(look, words.startsWith('"#') ? 'elem' : '', event)) };
}

/**
 * The lists, by their pages.
 * @returns {Map<string, ListOfPage>}
 */
function listsOf() {
  /** @type {{page: string, problems: Written[], replay?: {races: Replayed[]}}[]} */
  const pages = fs.readFileSync(path.join(HERE, 'pages.jsonl'), 'utf8').trim().split('\n').map((line) => JSON.parse(line));
  const lists = new Map(pages.map(({ page, problems, replay }) => [page, { problems: problems.map(problemOf), replays: replay?.races || [] }]));
  for (const [name, problems] of Object.entries(/** @type {{[name: string]: Written[]}} */ (read(APPLICATIONS, 'lists.json')))) {
    lists.set(name, { problems: problems.map(problemOf), replays: [] });
  }
  return lists;
}

/**
 * Of each pattern with its detail, how many of the judged problems do harm, and how many there are.
 * @param {Judged[]} judged
 * @param {Map<string, ListOfPage>} lists
 */
function sharesOf(judged, lists) {
  /** @type {import('../../list/rank.js').Shares} */
  const shares = {};
  for (const { page, name, judgement } of judged) {
    const problem = lists.get(page)?.problems.find((one) => one.name === name);
    if (!problem) throw new Error(`${page} has no problem ${name}`);
    const share = shares[kindOf(problem.look)] ||= [0, 0];
    share[0] += Number(judgement === HARMFUL);
    share[1]++;
  }
  const order = (/** @type {string} */ kind) => RANKS.findIndex((key) => key === kind.split(' ')[0]);
  return Object.fromEntries(Object.entries(shares).sort(([a], [b]) => order(a) - order(b) || (a < b ? -1 : 1)));
}

/**
 * The second draw, of which no share is taken: each problem with its place in the list of its page as it was drawn, without replays.
 * @returns {(Judged & {place: number})[]}
 */
const secondDraw = () => read(HERE, 'second-draw.json').problems;

/**
 * The judged problems of applications that have a line in the last recorded lists, each with its place there.
 * @returns {(Judged & {place: number})[]}
 */
function lastListed() {
  const lists = new Map(linesOf(STORED).map((line) => [line.application, line.failure === undefined ? line.problems : []]));
  return judgedOf('applications').flatMap((one) => {
    const found = lists.get(one.page)?.find(({ name }) => name === one.name);
    return found ? [{ ...one, place: found.place }] : [];
  });
}

module.exports = { judgedOf, lastListed, listsOf, secondDraw, sharesOf, HARMFUL };
