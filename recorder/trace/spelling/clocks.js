'use strict';
// Which timeouts (timers) are compared with each other, as one of 100 ms and one of 200 ms: only those of one window have an order by their delays, also two of
// the same delay (the first one that was set comes first). The analyzer compares the delays (docs/rules.md, rule 19).

const { BEGINS } = require('../intake.js');

/** @typedef {import('../intake.js').Entry} Entry */

/** The timeout's window is not known. */
const UNKNOWN = 'unknown';

/**
 * The timeouts that are not of the window that is compared.
 * @param {string[][]} sets `set T DELAY WINDOW`
 */
function besideLargest(sets) {
  /** @type {Map<string, number>} */
  const perWindow = new Map();
  for (const [, , , window] of sets) if (window !== UNKNOWN) perWindow.set(window, (perWindow.get(window) || 0) + 1);
  const [most] = [...perWindow].sort((a, b) => b[1] - a[1] || Number(a[0]) - Number(b[0]))[0] || ['0'];
  return sets.filter(([, , , window]) => window !== most).map(([, timeout]) => timeout);
}

/**
 * The timeouts that are not of the window of their event.
 * @param {Entry[]} entries
 */
function besideFirst(entries) {
  /** @type {string[]} */
  const foreign = [];
  let event = 0;
  let events = 0;
  /** @type {number[]} */
  const suspended = [];
  /** @type {Map<number, string>} */
  const windowOfEvent = new Map();
  for (const { text } of entries) {
    const [word, timeout, , window] = text.split(' ');
    if (word === 'inline') suspended.push(event);
    if (word === 'back') event = suspended.pop() || 0;
    else if (BEGINS.has(word)) event = ++events;
    if (word !== 'set') continue;
    if (!windowOfEvent.has(event) && window !== UNKNOWN) windowOfEvent.set(event, window);
    if (window !== windowOfEvent.get(event)) foreign.push(timeout);
  }
  return foreign;
}

/**
 * The timeouts that are written as intervals. In version 1 those of one event are compared, so each event has a window of its own;
 * from version 2 on all are, so it is the window with the most timeouts. Called by trace/spelling.js.
 * @param {Entry[]} entries the log
 * @param {number} version
 */
function foreignTimeouts(entries, version) {
  if (version === 1) return new Set(besideFirst(entries));
  return new Set(besideLargest(entries.map(({ text }) => text.split(' ')).filter(([word]) => word === 'set')));
}

module.exports = { foreignTimeouts };
