'use strict';
// Takes points out of the log: `point D E P` in an action, and `since P NOTE` for what comes after everything that the action did up to there, and not after
// the rest of its event. A point that is named becomes an inline dispatch P at element E of document D, with the notes in its begin. Any other is nothing.
// The page counts the rest of the action after each point as an action: the numbers in `into A NOTE` and `in A MODE N` are counted again.

/** @typedef {{text: string, place?: string, found?: string, stack?: string}} Entry */

/**
 * The log with a dispatch in the place of each point that a note names, and with actions counted again. Called by intake.js.
 * @param {Entry[]} log
 * @param {Set<string>} begins the words that begin an action
 * @returns {Entry[]}
 */
function withPoints(log, begins) {
  const notes = notesOf(log);
  /** @type {Entry[]} */
  const entries = [];
  /** By the page's number of an action. */
  const numbers = [0];
  let actions = 0;
  for (const entry of log) {
    const [word, second, ...rest] = entry.text.split(' ');
    if (word === 'since') continue;
    if (word === 'into' || word === 'in') {
      entries.push({ ...entry, text: [word, numbers[Number(second)] ?? second, ...rest].join(' ') });
    } else if (word === 'point') {
      const expanded = expand(second, rest[0], rest[1], notes.get(rest[1]));
      actions += expanded.filter(({ text }) => begins.has(text.slice(0, text.indexOf(' ')))).length;
      numbers.push(actions);
      entries.push(...expanded);
    } else {
      if (begins.has(word)) numbers.push(++actions);
      entries.push(entry);
    }
  }
  return entries;
}

/**
 * The notes of the points that are named, by their dispatch.
 * @param {Entry[]} log
 */
function notesOf(log) {
  /** @type {Map<string, Entry[]>} */
  const notes = new Map();
  for (const entry of log) {
    const found = /^since (\d+) (.*)$/.exec(entry.text);
    if (found) notes.set(found[1], [...notes.get(found[1]) || [], { ...entry, text: found[2] }]);
  }
  return notes;
}

/**
 * Notes that came at a point, as records: in an inline dispatch to a stand-in element.
 * @param {string} document
 * @param {string} element
 * @param {string} dispatch
 * @param {Entry[]} [notes]
 * @returns {Entry[]}
 */
function expand(document, element, dispatch, notes) {
  if (!notes) return [];
  const before = [{ text: `new ${document} ${element} plain` }, { text: `inline ${dispatch} ${element} settled` }];
  return [...before, ...notes, { text: `close ${dispatch}` }, { text: `back ${dispatch}` }];
}

module.exports = { withPoints };
