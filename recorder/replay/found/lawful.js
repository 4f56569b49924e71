'use strict';
// Whether a run in the other order agrees with the analyzer's second order: everything that the two accesses need came before them, and the analyzer puts it
// before them in the new trace too. If not, the page took another way.

const { eachAtOnce } = require('../../common/at-once.js');
const { explain } = require('../../races/links.js');
const { runProgram } = require('../../races/program.js');

/** @typedef {import('../../races/keys.js').Keys} Keys */
/** @typedef {{action: number, there: number}} Needed an action of the recorded run, and its number in the other one */

/** How many of the needed actions are queried, since each query passes the whole trace: those nearest to the two accesses. They are found by their names. */
const MOST_ASKED = 12;
const AT_ONCE = 3;
/** The number of an action that did not come again. */
const GONE = -1;

/**
 * The actions before the two accesses of a race in the analyzer's second order; null if it prints no such order.
 * @param {string} traceFile
 * @param {number} number of the race
 * @param {number} second the action of its second access
 */
async function neededFor(traceFile, number, second) {
  const { output } = await runProgram(['schedule', '--race', String(number)], traceFile);
  const order = [...output.matchAll(/^second (\d+)$/gm)].map(([, action]) => Number(action));
  const at = order.indexOf(second);
  return at < 0 ? null : order.slice(0, at);
}

/**
 * Whether the analyzer puts an action of a trace before one of two others.
 * @param {string} traceFile
 * @param {number} action
 * @param {number[]} pair
 */
async function isBefore(traceFile, action, pair) {
  for (const one of pair) {
    if (action < one && (await explain(traceFile, action, one)).steps) return true;
  }
  return false;
}

/**
 * Those of the actions that the analyzer puts before neither of the two of a pair.
 * @param {string} traceFile of the other run
 * @param {Needed[]} actions by their numbers there
 * @param {number[]} pair
 */
async function unorderedOf(traceFile, actions, pair) {
  const asked = actions.slice(-MOST_ASKED);
  const areBefore = await eachAtOnce(asked, AT_ONCE, ({ there }) => isBefore(traceFile, there, pair));
  return asked.filter((one, k) => !areBefore[k]);
}

/**
 * @typedef {object} Ordered
 * @property {number} needed how many actions the two accesses need
 * @property {number} asked how many of them were queried
 * @property {string[]} missing the actions, in words, that did not come again,
 * @property {string[]} behind those that came after the two,
 * @property {string[]} unordered and that the analyzer does not put before them
 */

/**
 * Compares a run in the other order with what the analyzer says that this order needs. Called by replay/replay.js.
 * @param {{traceFile: string, keys: Keys, race: {actions: number[]}, number: number}} recorded the race as it was recorded
 * @param {{file: string, keys: Keys, pair: [number, number]}} run its two actions in the other order, as they came
 * @returns {Promise<Ordered|null>} null if the analyzer prints no second order
 */
async function checkOrder({ traceFile, keys, race, number }, run) {
  const needed = await neededFor(traceFile, number, race.actions[1]);
  if (!needed) return null;
  const found = needed.map((action) => ({ action, there: run.keys.findAction(keys.identifyAction(action))?.action ?? GONE }));
  const last = Math.max(...run.pair);
  const before = found.filter(({ there }) => there !== GONE && there <= last && !run.pair.includes(there));
  const unordered = await unorderedOf(run.file, before, run.pair);
  const inWords = (/** @type {Needed[]} */ some) => some.map(({ action }) => keys.words.action(action));
  return {
    needed: needed.length,
    asked: Math.min(before.length, MOST_ASKED),
    missing: inWords(found.filter(({ there }) => there === GONE)),
    behind: inWords(found.filter(({ there }) => there > last)),
    unordered: inWords(unordered),
  };
}

/**
 * In which way the page took another way, in words, or ''. Called by replay/verdict.js.
 * @param {Ordered|null|undefined} order
 */
function otherWayInWords(order) {
  if (!order) return '';
  /** @type {[kind: string, actions: string[]][]} */
  const kinds = [['did not come', order.missing], ['came after the two', order.behind], ['is not before them by the rules there', order.unordered]];
  const [kind, some] = kinds.find(([, list]) => list.length) || ['', []];
  if (!kind) return '';
  const more = some.length > 1 ? ` (and ${some.length - 1} more)` : '';
  return `the page took another way before the two: ${some[0]} ${kind}${more}`;
}

module.exports = { checkOrder, otherWayInWords };
