'use strict';
// Why two actions that the rules order in one run came the other way round in another one: a step of the path between them that the other run breaks, or
// an action of the path that the other run does not have, since an earlier race came the other way round there.

const { runProgram } = require('../races/program.js');

/** @typedef {import('./orders-pairs.js').RunPairs} RunPairs */
/** @typedef {import('./orders-pairs.js').SeenPair} SeenPair */
/** @typedef {{file: string, pairs: RunPairs}} RecordedRun */
/** @typedef {{run: number, numbers: [number, number]}} Order of two actions in a run */
/** @typedef {{from: number, to: number, rule: number}} Step */

/**
 * @typedef {object} Reason
 * @property {'broken'|'lacking'|'undecided'} kind a rule that the other run breaks; an action that it lacks; several actions have one name
 * @property {string} step the rule, and the actions in words
 * @property {string} text
 * @property {Order} ordered where the rules order the two
 * @property {Order} other
 */

/** From the clearest to the least clear. */
const KINDS = ['broken', 'lacking', 'undecided'];

/**
 * The path by which one action comes before another one.
 * @param {string} file
 * @param {[number, number]} numbers
 * @returns {Promise<Step[]>}
 */
async function stepsOf(file, [from, to]) {
  const { output } = await runProgram(['explain', '--from', String(from), '--to', String(to)], file);
  return [...output.matchAll(/^step (\d+) (\d+) (\d+)$/gm)].map(([, first, second, rule]) => ({ from: Number(first), to: Number(second), rule: Number(rule) }));
}

/**
 * The number that an action of a run has in another one; null if the other one lacks it, undefined if it cannot be known.
 * @param {RunPairs} run
 * @param {number} number
 * @param {RunPairs} other
 */
function numberIn(run, number, other) {
  const name = run.names[number];
  const theirs = other.names.indexOf(name);
  if (theirs < 0) return null;
  return run.ofActions[number] && other.ofActions[theirs] ? theirs : undefined;
}

/**
 * Why two actions that came the other way round in another run are ordered in one; null if they are not.
 * @param {RecordedRun[]} runs
 * @param {Order} ordered
 * @param {Order} other
 * @returns {Promise<Reason|null>}
 */
async function reasonOf(runs, ordered, other) {
  const [run, another] = [runs[ordered.run], runs[other.run]];
  const steps = await stepsOf(run.file, ordered.numbers);
  if (!steps.length) return null;
  const words = (/** @type {number} */ number) => `${run.pairs.inWordsOf(number)} (action ${number})`;
  const both = { ordered, other };
  /** @type {Reason} */
  let unclear = { kind: 'undecided', step: '', text: `by ${steps.length} steps, of which run ${other.run} breaks none`, ...both };
  for (const { from, to, rule } of steps) {
    const [first, second] = [from, to].map((number) => numberIn(run.pairs, number, another.pairs));
    const step = `rule ${rule} from ${words(from)} to ${words(to)}`;
    const own = `rule ${rule} from ${run.pairs.names[from]} to ${run.pairs.names[to]}`;
    if (first === null || second === null) return { kind: 'lacking', step: own, text: `by ${step}; run ${other.run} lacks the ${first === null ? 'first' : 'second'}`, ...both };
    if (first === undefined || second === undefined) unclear = { kind: 'undecided', step: own, text: `by ${step}, but several actions have one of the two names`, ...both };
    else if (first > second) return { kind: 'broken', step: own, text: `by ${step}; in run ${other.run} the second came first (action ${second}, then ${first})`, ...both };
  }
  return unclear;
}

/**
 * The clearest reason that two runs give for a pair.
 * @param {RecordedRun[]} runs
 * @param {SeenPair} pair
 */
async function clearestReason(runs, { seen }) {
  /** @type {(Reason & {words: string[]})[]} */
  const reasons = [];
  const orderOf = (/** @type {SeenPair['seen'][number]} */ { run, pair }) => ({ run, numbers: pair.numbers });
  for (const ordered of seen.filter(({ pair }) => pair.isOrdered)) {
    for (const other of seen.filter(({ pair }) => pair.order !== ordered.pair.order)) {
      const reason = await reasonOf(runs, orderOf(ordered), orderOf(other));
      if (reason) reasons.push({ ...reason, words: [ordered, other].map(({ run, pair }) => `run ${run}: ${runs[run].pairs.inWords(pair)}`) });
      if (reason?.kind === 'broken') return reasons[reasons.length - 1];
    }
  }
  return reasons.sort((a, b) => KINDS.indexOf(a.kind) - KINDS.indexOf(b.kind))[0];
}

/**
 * The reasons of pairs that rules order and that came in both orders, each once for all locations of two actions.
 * @param {RecordedRun[]} runs
 * @param {SeenPair[]} pairs
 */
async function reasonsOf(runs, pairs) {
  /** @type {Map<string, SeenPair[]>} */
  const byActions = new Map();
  for (const pair of pairs) byActions.set(pair.actions, [...byActions.get(pair.actions) || [], pair]);
  /** @type {(Reason & {words: string[], count: number})[]} */
  const reasons = [];
  for (const own of byActions.values()) reasons.push({ ...await clearestReason(runs, own[0]), count: own.length });
  return reasons;
}

module.exports = { reasonOf, reasonsOf };
