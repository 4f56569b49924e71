'use strict';
// Pairs of actions that came in both orders, with or without accesses: each that the rules order in one of the two runs is given its reason.

const { eachAtOnce } = require('../common/at-once.js');
const { reasonOf } = require('./orders-reasons.js');

/** @typedef {import('./orders-reasons.js').RecordedRun} RecordedRun */
/** @typedef {import('./orders-reasons.js').Reason} Reason */
/** @typedef {{run: number, numbers: [number, number]}} Order */

/** At most so many pairs of a page are looked at, spread over all of them; of a run with more actions none are. */
const MOST_LOOKS = 120;
const MOST_ACTIONS = 4000;
/** So many at once. */
const AT_ONCE = 4;

/**
 * The numbers of the actions that have a name of their own, by name.
 * @param {RecordedRun} run
 */
const numbersOf = ({ pairs }) => new Map(pairs.ofActions.flatMap((name, number) => (name ? [/** @type {[string, number]} */ ([name, number])] : [])));

/**
 * The pairs of actions that came in one order in one run and in the other in another one, once each: a run is compared with the first one and with the next.
 * @param {RecordedRun[]} runs
 */
function reversedActions(runs) {
  const numbers = runs.map(numbersOf);
  /** @type {Map<string, [Order, Order]>} */
  const found = new Map();
  const sides = runs.flatMap((_, run) => [[0, run], [run, run + 1]]).filter(([a, b]) => a < b && b < runs.length);
  for (const [first, second] of sides) {
    if ([first, second].some((run) => numbers[run].size > MOST_ACTIONS)) continue;
    const common = [...numbers[first]].flatMap(([name, number]) => {
      const other = numbers[second].get(name);
      return other === undefined ? [] : [{ name, number, other }];
    });
    common.forEach((b, k) => {
      for (let i = 0; i < k; i++) {
        const a = common[i];
        if (a.other > b.other) found.set([a.name, b.name].sort().join('\n'), [{ run: first, numbers: [a.number, b.number] }, { run: second, numbers: [b.other, a.other] }]);
      }
    });
  }
  return [...found.values()];
}

/**
 * The reasons of those that the rules order, by the broken rule once for each two actions.
 * @param {RecordedRun[]} runs
 */
async function reasonsOfActions(runs) {
  const all = reversedActions(runs);
  const stride = Math.max(1, all.length / MOST_LOOKS);
  const looked = Array.from({ length: Math.floor(all.length / stride) }, (_, k) => all[Math.floor(k * stride)]);
  /** @type {Map<string, Reason & {count: number}>} */
  const reasons = new Map();
  const ways = looked.flatMap(([first, second]) => [[first, second], [second, first]]);
  await eachAtOnce(ways, AT_ONCE, async ([own, other]) => {
    const reason = await reasonOf(runs, own, other);
    if (!reason) return;
    const known = reasons.get(`${reason.kind} ${reason.step}`);
    reasons.set(`${reason.kind} ${reason.step}`, { ...reason, count: (known?.count || 0) + 1 });
  });
  return { reversed: all.length, looked: looked.length, reasons: [...reasons.values()] };
}

module.exports = { reasonsOfActions };
