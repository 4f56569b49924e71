'use strict';
// What orders.js found of a page as a line of JSON, and lines as tables: a row for each page, or sums with a row for each page that has something to explain.

const { told } = require('./corpus/tables.js');
const { tableOf } = require('./measured-pages.js');

/** @typedef {Awaited<ReturnType<typeof import('./orders.js').compareOrders>>} Compared */
/** @typedef {{kind: string, text: string, count: number, words: string[]}} ToldReason */

/**
 * What several recordings of a page have, in numbers of pairs; `kinds` are those of the pairs that came in both orders and are ordered in some run.
 * @typedef {object} OrdersLine
 * @property {string} name
 * @property {number} times how many recordings were to be made
 * @property {number} runs
 * @property {string[]} failures of recordings
 * @property {boolean} isCut
 * @property {number} orderedOnce
 * @property {number} listedBoth
 * @property {number} orderedBoth
 * @property {number} listedOnce
 * @property {number} leftOut
 * @property {{[kind: string]: number}} kinds
 * @property {ToldReason[]} reasons
 * @property {{reversed: number, looked: number, broken: number, reasons: ToldReason[]}} actions
 */

const HEAD = ['Page', 'Runs', 'Pairs', 'One order, ordered', 'Both orders, listed', 'Both orders, ordered in some run', 'of these by a rule that another run breaks', 'not decided', 'One order, listed', 'Left out: one name for several',
  'Actions in both orders', 'looked at', 'steps of rules that another run breaks'];
const EXPLAINED_HEAD = ['Page', 'Runs', 'Pairs', 'Both orders, ordered in some run', 'by a rule that another run breaks', 'not decided', 'Steps of rules that another run breaks'];
/** So many reasons of each kind stay in a line. */
const MOST_REASONS = 50;

/**
 * @param {{kind: string, count: number}[]} reasons
 * @param {string} kind
 */
const countOf = (reasons, kind) => reasons.filter((one) => one.kind === kind).reduce((sum, { count }) => sum + count, 0);

/**
 * @param {{kind: string, text: string, count: number, words?: string[]}[]} reasons
 * @returns {ToldReason[]}
 */
function toldReasons(reasons) {
  const kinds = [...new Set(reasons.map(({ kind }) => kind))];
  return kinds.flatMap((wanted) => reasons.filter(({ kind }) => kind === wanted).slice(0, MOST_REASONS))
    .map(({ kind, text, count, words = [] }) => ({ kind, text, count, words }));
}

/**
 * @param {Compared} compared
 * @param {number} times
 * @returns {OrdersLine}
 */
function lineOf({ name, runs, failures, orderedOnce, listedBoth, orderedBoth, reasons, listedOnce, several, leftOut, isCut, actions }, times) {
  const [broken, undecided, lacking] = ['broken', 'undecided', 'lacking'].map((kind) => countOf(reasons, kind));
  const { reversed, looked } = actions;
  const steps = actions.reasons.filter(({ kind }) => kind === 'broken');
  return {
    name, times, runs: runs.length, failures, isCut, orderedOnce: orderedOnce.length, listedBoth: listedBoth.length, orderedBoth: orderedBoth.length, listedOnce: listedOnce.length,
    leftOut: several + leftOut, kinds: { broken, undecided, lacking }, reasons: toldReasons(reasons), actions: { reversed, looked, broken: steps.length, reasons: toldReasons(steps) },
  };
}

/** @param {OrdersLine} line */
const pairsOf = ({ orderedOnce, listedBoth, orderedBoth, listedOnce }) => orderedOnce + listedBoth + orderedBoth + listedOnce;

/** @param {OrdersLine} line */
const rowOf = (line) => [
  line.name, line.runs, `${pairsOf(line)}${line.isCut ? ' (cut)' : ''}`, line.orderedOnce, line.listedBoth, line.orderedBoth, line.kinds.broken, line.kinds.undecided, line.listedOnce, line.leftOut,
  line.actions.reversed, line.actions.looked, line.actions.broken,
];

/**
 * A line in words, with the names of the columns.
 * @param {OrdersLine} line
 */
const inWords = (line) => HEAD.slice(1).map((name, k) => `${name.toLowerCase()} ${rowOf(line)[k + 1]}`).join('; ');

/**
 * A page that failed has a line without figures.
 * @param {OrdersLine & {failure?: string}} line
 */
const isBroken = ({ kinds, actions, failure }) => failure === undefined && kinds.broken + actions.broken > 0;
/** @param {OrdersLine} line */
const hasToBeExplained = (line) => isBroken(line) || line.kinds.undecided > 0;

/** @type {[name: string, value: (line: OrdersLine) => number][]} */
const SUMS = [
  ['recordings', ({ runs }) => runs],
  ['recordings that failed', ({ failures }) => failures.length],
  ['pairs', pairsOf],
  ['one order, ordered', ({ orderedOnce }) => orderedOnce],
  ['both orders, listed', ({ listedBoth }) => listedBoth],
  ['one order, listed', ({ listedOnce }) => listedOnce],
  ['both orders, ordered in some run', ({ orderedBoth }) => orderedBoth],
  ['of these by a rule that another run breaks', ({ kinds }) => kinds.broken],
  ['of these not decided', ({ kinds }) => kinds.undecided],
  ['of these by an action that another run lacks', ({ kinds }) => kinds.lacking],
  ['left out: one name for several', ({ leftOut }) => leftOut],
  ['actions in both orders', ({ actions }) => actions.reversed],
  ['looked at', ({ actions }) => actions.looked],
  ['steps of rules that another run breaks', ({ actions }) => actions.broken],
];

/** @param {number} number */
const whole = (number) => number.toLocaleString('en-GB');

/**
 * The tables of many pages.
 * @param {(OrdersLine & {failure?: string})[]} lines
 */
function sumTables(lines) {
  const done = lines.filter(({ failure }) => failure === undefined);
  const sums = SUMS.map(([name, value]) => {
    const values = done.map(value);
    return [name, whole(values.reduce((sum, one) => sum + one, 0)), values.filter(Boolean).length];
  });
  const rows = done.filter(hasToBeExplained).map((line) => [told(line.name), line.runs, whole(pairsOf(line)), line.orderedBoth, line.kinds.broken, line.kinds.undecided, line.actions.broken]);
  const cut = done.filter(({ isCut }) => isCut).map(({ name }) => told(name));
  const failed = lines.flatMap(({ name, failure }) => (failure === undefined ? [] : [`${told(name)} (${told(failure)})`]));
  return [
    tableOf([`Of ${done.length} pages`, 'All', 'Pages with some'], sums),
    rows.length ? tableOf(EXPLAINED_HEAD, rows) : 'No page has a pair or a step that another run breaks, or that is not decided.',
    ...cut.length ? [`Only the first pairs were compared: ${cut.join('; ')}.`] : [],
    ...failed.length ? [`Failed: ${failed.join('; ')}.`] : [],
  ].join('\n\n');
}

module.exports = { HEAD, lineOf, rowOf, inWords, isBroken, sumTables };
