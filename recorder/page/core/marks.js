// Marks in texts of functions and scripts, which the page finds as it wrote them. A page may replace what texts can do, so the functions taken before are used.

import { settings } from './settings.js';
import { String, apply } from './taken.js';

const { indexOf, slice } = String.prototype;

/** @type {import('../types').TextTools} */
const TOOLS = {
  indexOf: (text, part, from) => apply(indexOf, text, [part, from]),
  slice: (text, start, end) => apply(slice, text, [start, end]),
};

/**
 * @param {string} text
 * @returns {string}
 */
const withoutMarks = (text) => settings.textWithoutMarks(text, settings.marks, TOOLS);

/**
 * What is inserted, as a mark in a text. Called by page/events/on-handlers.js, page/scripts/addresses.js and page/scripts/inserted-modules.js.
 * @param {string} text
 * @param {string} inserted
 * @returns {string}
 */
function markIn(text, inserted) {
  const hasBlanks = TOOLS.indexOf(text, '\v', 0) >= 0 || TOOLS.indexOf(text, '\f', 0) >= 0;
  const { begin, end } = hasBlanks ? settings.marks.inComments : settings.marks.inBlanks;
  return `${begin}${inserted}${end}`;
}

export { withoutMarks, markIn };
