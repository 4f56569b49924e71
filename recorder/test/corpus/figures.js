'use strict';
// The figures of an evaluation: those of a page from its line, and the sums over all pages.

const { areTimesGood, isDone } = require('./lines.js');

/**
 * @typedef {import('./types').Counts} Counts
 * @typedef {import('./types').Figures} Figures
 * @typedef {import('./types').Line} Line
 * @typedef {import('./types').LoadFigures} LoadFigures
 * @typedef {import('./types').Loads} Loads
 * @typedef {import('./types').ReplayFigures} ReplayFigures
 * @typedef {import('./types').ReplayedRace} ReplayedRace
 * @typedef {import('./types').RunFacts & import('./types').RunFigures} WholeRun
 * @typedef {import('./types').RunOfLine} RunOfLine
 * @typedef {import('./types').Trouble} Trouble
 */

/** At what a race is that is found with objects and closures alone (measure.js). */
const OF_OBJECTS = ['object', 'closure', 'module'];
/** What a difference does, the worst first, in the words of a replay (replay/verdict.js). */
const EFFECTS = ['an uncaught error', 'a lost act', 'a lost input', 'a lost event', 'another content', 'another state'];
/**
 * Why a race could not be turned, by what the replay says last of it.
 * @type {[name: string, expression: RegExp][]}
 */
const WHYS = [
  ['both come from one act of the user', /both come from one act of the user/g],
  ['what brings the one has to come before the other', /has to come before/g],
  ['nothing that brings it can be held back', /nothing that brings .*? can be kept back/g],
  ['the second access did not come meanwhile', /the second access did not come meanwhile/g],
  ['the first access came before all the same', /the first access came before all the same/g],
  ['what was held back was not met again', /it was not met again/g],
  ['no report of the reversed run', /gave no report of this run/g],
];
const LIMIT = /more than|limit|cut off|ended before the page was quiet/;

/**
 * @param {number|null|undefined} value
 * @returns {value is number}
 */
const isKnown = (value) => value !== null && value !== undefined;

/**
 * A recording that has something.
 * @param {RunOfLine} run
 * @returns {run is WholeRun}
 */
const isWhole = (run) => !run.nothing;

/**
 * @param {Counts} counts
 * @param {string[]} names
 */
const countOf = (counts, names) => names.reduce((sum, name) => sum + (counts[name] || 0), 0);

/** @param {number[]} numbers */
function median(numbers) {
  const sorted = [...numbers].sort((a, b) => a - b);
  const middle = (sorted.length - 1) / 2;
  return sorted.length ? (sorted[Math.floor(middle)] + sorted[Math.ceil(middle)]) / 2 : null;
}

/**
 * Loads of a page with and without the recorder: the median of each, and how many times the one is the other; null where a load did not end.
 * @param {Loads} loads
 * @returns {LoadFigures|null}
 */
function loadsOf({ without, with: recorded }) {
  if (![...without, ...recorded].every(isKnown)) return null;
  const [plain, own] = [median(without.filter(isKnown)), median(recorded.filter(isKnown))];
  if (plain === null || own === null) return null;
  return { without: plain, with: own, times: plain > 0 ? own / plain : null };
}

/**
 * The last reason in the words of a race that was not turned.
 * @param {string} why
 */
function whyOf(why) {
  const found = WHYS.map(([name, expression]) => ({ name, at: Math.max(-1, ...[...why.matchAll(expression)].map(({ index = -1 }) => index)) })).filter(({ at }) => at >= 0);
  return found.sort((a, b) => b.at - a.at)[0]?.name || 'other';
}

/**
 * @param {Counts} counts
 * @param {string} name
 */
function addTo(counts, name) {
  counts[name] = (counts[name] || 0) + 1;
}

/**
 * What came of the races that were run again.
 * @param {{races: ReplayedRace[]}} replay
 * @returns {ReplayFigures}
 */
function replaysOf({ races }) {
  /** @type {ReplayFigures} */
  const found = { tried: races.length, turned: 0, listed: 0, differ: 0, same: 0, apart: 0, not: 0, effects: {}, whys: {} };
  for (const { verdict, effect, why, isListed, isApart } of races) {
    if (verdict === 'not turned') {
      found.not++;
      addTo(found.whys, whyOf(why || ''));
      continue;
    }
    found.turned++;
    found.listed += Number(isListed);
    found.apart += Number(isApart);
    found[verdict === 'differs' ? 'differ' : 'same']++;
    if (verdict === 'differs') addTo(found.effects, String(effect));
  }
  return found;
}

/**
 * The figures of a page by its line; null where its first recording has nothing. Its loads are included if nothing else was at work.
 * @param {Line} line
 * @returns {Figures|null}
 */
function figuresOf(line) {
  if (!isDone(line)) return null;
  const [run] = line.runs;
  if (!isWhole(run)) return null;
  const { page, package: name, kind, problems, loads, program, replay } = line;
  const { actions, accesses, races, groups, problems: count, lines } = run;
  const again = line.runs[1].nothing ? null : problems.filter(({ isAgain }) => isAgain).length;
  return {
    page, package: name, kind, actions, accesses, races, groups, problems: count, lines,
    objects: countOf(run.kinds, OF_OBJECTS), again, looks: run.looks, kinds: run.kinds, loads: areTimesGood(loads) ? loadsOf(loads) : null, program, replay: replaysOf(replay),
  };
}

/**
 * @param {{page: string, value: number|null|undefined}[]} values
 * @returns {{median: number, mean: number, most: number, page: string, sum: number, pages: number}|null}
 */
function sumOf(values) {
  const known = values.flatMap(({ page, value }) => (isKnown(value) ? [{ page, value }] : []));
  const middle = median(known.map(({ value }) => value));
  if (middle === null) return null;
  const sum = known.reduce((total, { value }) => total + value, 0);
  const most = known.reduce((one, other) => (other.value > one.value ? other : one));
  return { median: middle, mean: sum / known.length, most: most.value, page: most.page, sum, pages: known.length };
}

/**
 * What is counted by names, over all pages: how many in all, and on how many pages.
 * @param {Figures[]} figures
 * @param {(one: Figures) => Counts} what
 */
function together(figures, what) {
  /** @type {{[name: string]: {count: number, pages: number}}} */
  const counts = {};
  for (const one of figures) {
    for (const [name, count] of Object.entries(what(one))) {
      counts[name] = counts[name] || { count: 0, pages: 0 };
      counts[name].count += count;
      counts[name].pages++;
    }
  }
  return counts;
}

/**
 * The problems that do most harm in the other order, the worst first: to be looked at by hand.
 * @param {Line[]} lines
 * @param {number} count
 */
function worstOf(lines, count) {
  const all = lines.filter(isDone).flatMap(({ page, replay }) => replay.races.filter(({ verdict }) => verdict === 'differs').map((race) => ({ page, ...race })));
  return all.sort((a, b) => EFFECTS.indexOf(a.effect || '') - EFFECTS.indexOf(b.effect || '')).slice(0, count);
}

/**
 * What went wrong or was too much, as lists with the pages.
 * @param {Line[]} lines
 * @returns {{[list in 'failed'|'nothing'|'alone'|'limits'|'replays']: Trouble[]}}
 */
function troublesOf(lines) {
  const done = lines.filter(isDone);
  const ofRuns = (/** @type {(run: RunOfLine) => string[]} */ what) => done.flatMap((line) => line.runs.flatMap((run, k) => what(run).map((text) => ({ page: line.page, run: k + 1, text }))));
  return {
    failed: lines.flatMap(({ page, failure }) => (failure ? [{ page, text: failure }] : [])),
    nothing: ofRuns(({ nothing }) => (nothing ? [nothing] : [])),
    alone: ofRuns(({ alone }) => alone),
    limits: ofRuns(({ notRecorded, leftOut }) => [...notRecorded.filter((text) => LIMIT.test(text)), ...leftOut ? [`locations left out for what the program takes: ${leftOut}`] : []]),
    replays: done.flatMap(({ page, replay }) => (replay.failure ? [{ page, text: replay.failure }] : [])),
  };
}

module.exports = { figuresOf, replaysOf, sumOf, together, worstOf, troublesOf, loadsOf, whyOf, median, EFFECTS };
