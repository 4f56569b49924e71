'use strict';
// The lists of OUT.names.json, and which notes of the log declare what is in them.

/**
 * By the kind of a fact of the log (log/facts.js): its list in OUT.names.json, which names.js makes.
 * @type {Map<string, string>}
 */
const LISTS = new Map(Object.entries({
  element: 'elements', document: 'documents', handler: 'handlers', timeout: 'timeouts', interval: 'intervals', request: 'requests', dispatch: 'dispatches',
}));
/**
 * The notes whose place is that of what they declare.
 * @type {Map<string, string>}
 */
const DECLARES = new Map(Object.entries({ on: 'handlers', set: 'timeouts', every: 'intervals', ask: 'intervals', send: 'requests', post: 'messages' }));

module.exports = { LISTS, DECLARES };
