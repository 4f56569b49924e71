'use strict';
// Links between actions, as the analyzer prints them when it explains why one action is before another. The view shows only these. Happens-before edges and
// paths.

const { eachAtOnce } = require('../common/at-once.js');
const { answersAtOnce, runProgram } = require('./program.js');

/** Processes of the analyzer at once, and queries for one view: each is a call of the analyzer. */
const AT_ONCE = 4;
const MOST_QUERIES = 300;
/** A view waits at most this many milliseconds for links. */
const LONGEST = 4000;

/**
 * The steps of a path from one action to another. Called by replay/causes/causes.js, replay/found/lawful.js and view/why.js.
 * @param {string} traceFile
 * @param {number} from
 * @param {number} to
 * @returns {Promise<{steps: [from: number, to: number, rule: number][]|null, fault: string}>} no steps if there is no path
 */
async function explain(traceFile, from, to) {
  const { output, fault } = await runProgram(['explain', '--from', String(from), '--to', String(to)], traceFile);
  if (!output.startsWith('explain ')) return { steps: null, fault: fault || output.trim() || 'the analyzer printed nothing' };
  if (/^unordered$/m.test(output)) return { steps: null, fault: '' };
  const steps = [...output.matchAll(/^step (\d+) (\d+) (\d+)$/gm)].map(([, ...step]) => /** @type {[number, number, number]} */ (step.map(Number)));
  return { steps, fault: '' };
}

/**
 * The paths that were found, from the first action of each pair. The analyzer takes one link into each action, so a path over an action contains the path
 * to it, and this one is not queried.
 */
class Paths {
  constructor() {
    /** @type {Map<string, [number, number, number]>} */
    this.links = new Map();
    /** @type {Map<number, Set<number>>} the actions of the paths by their first action */
    this.reached = new Map();
  }

  /** @param {number} from @param {number} to */
  has(from, to) {
    return !!this.reached.get(from)?.has(to);
  }

  /**
   * Notes that an action reaches another one, by these steps of the analyzer's path: each step is a link, once.
   * @param {number} from
   * @param {number} to
   * @param {[from: number, to: number, rule: number][]} steps
   */
  add(from, to, steps) {
    const reached = this.reached.get(from) || new Set();
    this.reached.set(from, reached.add(to));
    for (const step of steps) {
      this.links.set(step.join(' '), step);
      reached.add(step[1]);
    }
  }

  list() {
    return [...this.links.values()].sort((a, b) => a[0] - b[0] || a[1] - b[1]);
  }
}

/**
 * The links of the paths from the first action of each pair to its second, each `[from, to, rule]` once. Called by view.js.
 * @param {string} traceFile
 * @param {[from: number, to: number][]} pairs
 * @returns {Promise<[from: number, to: number, rule: number][]|null>} null if they are left for later, since each answer would take a minute
 */
async function linksBetween(traceFile, pairs) {
  if (!answersAtOnce()) return null;
  const until = Date.now() + LONGEST;
  const paths = new Paths();
  /** @type {string[]} */
  const faults = [];
  let queries = 0;
  await eachAtOnce(pairs, AT_ONCE, async ([from, to]) => {
    if (faults.length || Date.now() >= until || queries >= MOST_QUERIES || paths.has(from, to)) return;
    queries++;
    const { steps, fault } = await explain(traceFile, from, to);
    if (fault) faults.push(fault); // an analyzer without this subcommand
    paths.add(from, to, steps || []);
  });
  return paths.list();
}

module.exports = { explain, linksBetween };
