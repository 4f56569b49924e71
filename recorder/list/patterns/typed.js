'use strict';
// Whether code writes a field over what a user typed, and other code reads it: a callback that comes late, as that of a search, then finds another text.

const { countBefore } = require('./accesses.js');

/**
 * @typedef {import('../../races/actions.js').Action} Action
 * @typedef {import('./accesses.js').Accesses} Accesses
 */

const STARTS = new Set(['fire', 'wfire', 'inline']);

/**
 * Whether an action is the event of a user who typed or chose.
 * @param {Action} action
 */
const isTyping = ({ words: [word, , , type] }) => STARTS.has(word) && type === 'input';

/**
 * The action of the last write to a location before a line.
 * @param {Accesses} accesses @param {string} location @param {number} line
 */
function writerBefore(accesses, location, line) {
  const writes = accesses.writesOf(location);
  const last = writes[countBefore(writes, (one) => one < line) - 1];
  const all = accesses.of(location);
  return last === undefined ? null : all[countBefore(all, (one) => one.line < last)].action;
}

/**
 * Whether the read of a race finds what the user typed only if it comes before the write. A value that is made of the typed one is no other text. Called by
 * list/looks.js.
 * @param {import('../types').Race} race at a field
 * @param {Accesses} accesses
 * @param {Action[]} actions
 */
function isTypedOver({ location, modes, actions: [first, second], lines }, accesses, actions) {
  if (modes === 'ww') return false;
  const [writer, line] = modes[0] === 'w' ? [first, lines[0]] : [second, lines[1]];
  const isMadeOfIt = accesses.inAction(location, writer).some((one) => !one.isWrite && one.line < line);
  if (isMadeOfIt || isTyping(actions[writer])) return false;
  const before = writerBefore(accesses, location, lines[0]);
  return before !== null && isTyping(actions[before]);
}

module.exports = { isTypedOver };
