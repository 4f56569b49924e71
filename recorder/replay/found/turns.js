'use strict';
// A page that never rests, as one with an interval: what keeps it going, and how often that came. Runs of it (../runs.js) are compared
// after equally many turns.

const { BEGINS, wordOf } = require('../../trace/intake.js');

/** @typedef {{text: string, place?: string}} Entry an entry of the log */
/** @typedef {{word: string, place: string}} Turn the word of the note that requests it, and the place of the code */

/** The notes of the log that request a turn, and the lines that start one. */
const ASKS = /^(?:early )?(set|every|ask) (\d+)/;
const STARTS = /^(timer|tick|anim) (\d+)/;
/** @type {{[word: string]: string}} */
const ASKED_BY = { timer: 'set', tick: 'every', anim: 'ask' };
/** What came less often does not keep a page going. */
const FEWEST = 5;
/** So many turns are the end of a run. */
const LAST = 10;

/**
 * The turns of a run in their order.
 * @param {Entry[]} entries
 * @returns {string[]} the word of the note that requested each, and the place of the code, as `set address:line:column`
 */
function turnsOf(entries) {
  const askers = new Map();
  /** @type {string[]} */
  const turns = [];
  for (const { text, place } of entries) {
    const asked = ASKS.exec(text);
    if (asked && place) askers.set(`${asked[1]} ${asked[2]}`, `${asked[1]} ${place}`);
    const begun = STARTS.exec(text);
    const asker = begun && askers.get(`${ASKED_BY[begun[1]]} ${begun[2]}`);
    if (asker) turns.push(asker);
  }
  return turns;
}

/**
 * What came most often at the end of the recorded run (../runs.js), as that keeps a restless page going; null if nothing came often. What came more often before, as the lines of a
 * list that are shown one by one, is over.
 * @param {Entry[]} entries
 * @returns {Turn & {count: number}|null}
 */
function mostFrequent(entries) {
  const turns = turnsOf(entries);
  const countIn = (/** @type {string[]} */ some, /** @type {string} */ asker) => some.filter((one) => one === asker).length;
  const last = turns.slice(-LAST);
  const [most] = [...new Set(last)].map((asker) => ({ asker, count: countIn(turns, asker), atEnd: countIn(last, asker) }))
    .filter(({ count }) => count >= FEWEST).sort((a, b) => b.atEnd - a.atEnd || b.count - a.count);
  if (!most) return null;
  const [word] = most.asker.split(' ');
  return { word, place: most.asker.slice(word.length + 1), count: most.count };
}

/**
 * How often a page's own turn came in a run, for ../replay.js.
 * @param {Entry[]} entries
 * @param {Turn} turn
 */
const countTurns = (entries, { word, place }) => turnsOf(entries).filter((asker) => asker === `${word} ${place}`).length;

/**
 * Whether a page did nothing from an entry of its log on but what keeps it going.
 * @param {Entry[]} entries
 * @param {number} from
 */
function hasOnlyTurns(entries, from) {
  const most = mostFrequent(entries);
  if (!most) return false;
  const begun = entries.slice(from).filter(({ text }) => BEGINS.has(wordOf(text))).length;
  return begun > 0 && begun === countTurns(entries, most) - countTurns(entries.slice(0, from), most);
}

module.exports = { mostFrequent, countTurns, hasOnlyTurns };
