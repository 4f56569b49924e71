'use strict';
// Removals of handlers: which writes of a handler's slot are one. Each registration of a listener has a number of its own, so a further write of its slot ends
// it: `removeEventListener`, the end of a signal or of a `once` listener. Of an `on..` property nothing is known.

const OF_LISTENER = /^slot .*\//;

/**
 * Whether a write removes a handler. Called by list/looks.js and list/sides.js.
 * @param {Pick<import('./accesses.js').Accesses, 'of'>} accesses
 * @param {string} location
 * @param {number} line of the write
 */
const isRemoval = (accesses, location, line) => OF_LISTENER.test(location) && accesses.of(location).some((one) => one.isWrite && one.line < line);

module.exports = { isRemoval };
