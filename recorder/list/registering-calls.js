'use strict';
// Calls that register handlers, as `$(..).tabs()` or `.on('mouseover mouseout', f)`: late handlers of one call are one entry of the list, since one change
// mends all. Names of problems are made from each handler.

/**
 * @typedef {import('./types').Place} Place
 * @typedef {import('./types').Race} Race
 * @typedef {import('./sides.js').Side} Side
 */

const MOST_NAMED = 3;
const BY_CALL = 'registered by the same call';

/**
 * The line of a library that makes an access for the page's own code at a place; null if no library does, or this is unknown. Called by sides.js.
 * @param {import('../races/words.js').Words} words
 * @param {number} line of the trace
 * @param {string} location
 * @param {Place|null} at
 * @returns {Place|null}
 */
function wayOf(words, line, location, at) {
  const own = words.placeOfLine(line);
  if (!own || !at || words.isOfLibrary(at)) return null;
  if (words.isOfLibrary(own)) return String(words.names.callers?.[line]) === String(at) ? own : null;
  const [, handler = ''] = location.startsWith('slot ') ? location.split('/') : [];
  return (String(own) === String(at) && (words.names.handlers[handler]?.way || words.names.ways?.[line])) || null;
}

/**
 * The call of the page's own code that registers the handler of a race, in one action: all that a library registers for it, or the handlers of one target. Called
 * by entries.js and sides.js.
 * @param {import('../races/words.js').Words} words
 * @param {Race} race
 * @returns {string} '' if it is unknown
 */
function callOf(words, { location, modes, lines, actions }) {
  const k = modes.indexOf('w');
  const at = [words.placeOfLine(lines[k]), words.names.callers?.[lines[k]]].find((place) => place && !words.isOfLibrary(place));
  if (!at || !location.startsWith('slot ') || !modes.includes('r')) return '';
  return [actions[k], ...at, wayOf(words, lines[k], location, at) ? '' : location.split(' ')[1]].join(' ');
}

/**
 * The type of the event that a side is.
 * @param {Side} side
 */
const typeOf = ({ verb }) => verb.replace(/ at$/, '');

/**
 * What else the call of a late handler registers: events at the same element, then those at others. Called by entries.js.
 * @param {Side} own the event that the entry shows
 * @param {Side[]} others
 * @returns {string} '' if there is nothing else
 */
function alsoByCall(own, others) {
  const isHere = (/** @type {Side} */ { what }) => what === own.what;
  const texts = new Set([...others.filter(isHere).map(typeOf), ...others.filter((one) => !isHere(one)).map(({ verb, what }) => `${verb} ${what}`)]);
  texts.delete(typeOf(own));
  const [...all] = texts;
  return all.length ? `(also ${all.slice(0, MOST_NAMED).join(', ')}${all.length > MOST_NAMED ? ', ..' : ''}: ${BY_CALL})` : '';
}

/**
 * A line of handlers that one call registers: it is shown by the one that was replayed, else by one that changed something, if that is of the same rank. Called by
 * grouping.js.
 * @param {import('./listing.js').Line} told
 * @param {(one: import('./listing.js').Listed) => string} rankOf
 * @param {(one: import('./listing.js').Listed) => boolean} isReplayed
 * @returns {import('./listing.js').Line}
 */
function shownByChange({ line, others }, rankOf, isReplayed) {
  const replayed = isReplayed(line) ? line : others.find((one) => isReplayed(one) && one.look.look === line.look.look);
  const other = replayed ? replayed !== line && replayed : line.look.isUnchanged && others.find((one) => !one.look.isUnchanged && rankOf(one) === rankOf(line));
  return other ? { line: other, others: [line, ...others.filter((one) => one !== other)] } : { line, others };
}

module.exports = { alsoByCall, callOf, shownByChange, wayOf };
