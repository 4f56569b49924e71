'use strict';
// What replays found, counted for the last lines: how many races differ by themselves, and how many only since another race came in the other order too.

/** @typedef {import('./types').Verdict} Verdict */
/** @typedef {'differs'|'others'|'not'|'same'} Kind */

/**
 * What a replay found of a race: only er_page and er_replay know whether a difference comes from another race. Called by
 * list/json.js and list/sarif.js.
 * @param {Pick<Verdict, 'kind'|'verdict'|'effect'>} verdict
 * @returns {Kind}
 */
const kindOf = ({ kind, verdict, effect }) => kind || (verdict !== 'turned' ? 'not' : effect ? 'differs' : 'same');

/**
 * How many races there are of each kind, in words: `1 differs, 2 only by another race, 1 without a visible difference`. Called by replay-results.js.
 * @param {Kind[]} kinds
 * @param {string} [note] of those that differ
 */
function countsInWords(kinds, note = '') {
  const count = (/** @type {Kind} */ kind) => kinds.filter((one) => one === kind).length;
  const [differs, others, not, same] = [count('differs'), count('others'), count('not'), count('same')];
  const first = `${differs} differ${differs === 1 ? 's' : ''}${note}`;
  return [first, others && `${others} only by another race`, not && `${not} could not be turned`, same && `${same} without a visible difference`].filter(Boolean).join(', ');
}

/**
 * What replays found of the races of a list, in words. Called by outputs.js and loads-page.js.
 * @param {(Map<number, Verdict>|undefined)[]} verdicts by run, and by the index of the race
 * @returns {string} '' if no race was run again
 */
function replaysInWords(verdicts) {
  const all = verdicts.flatMap((some) => [...some?.values() || []]);
  if (!all.length) return '';
  const differing = all.filter((one) => kindOf(one) === 'differs');
  const onlyHandlers = differing.filter(({ differences = [] }) => differences.length && differences.every(({ kind }) => kind === 'event')).length;
  const note = onlyHandlers ? ` (${onlyHandlers === differing.length ? 'only' : `${onlyHandlers} only`} in which handlers run)` : '';
  return `${all.length} run again in the other order: ${countsInWords(all.map(kindOf), note)}`;
}

module.exports = { countsInWords, kindOf, replaysInWords };
