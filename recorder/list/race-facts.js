'use strict';
// Facts of a race on which its sentence, its usual change and its line `recorded` depend, besides the two sides: the handlers that an event looks for, whether
// only libraries are involved, the requests of two replies.

const { wayOf } = require('./registering-calls.js');

/**
 * @typedef {import('./types').Place} Place
 * @typedef {import('./types').Race} Race
 * @typedef {import('./sides.js').Sides} Sides
 */
/**
 * Of two replies: the requests in words, in the order in which they were sent; whether one callback takes both; whether the older reply came first; and how many
 * of the two writes are known to replace all that was there.
 * @typedef {{older: string, newer: string, isOneCallback: boolean, isInOrder: boolean, replace: ''|'both'|'one'}} Replies
 */

const EVENTS = new Set(['fire', 'wfire', 'inline']);

/**
 * Of an event that looks for handlers: the tag of its target, what the browser does without a handler, whether a library registers it for the page's own call, the
 * script of a library that registers it by itself, and in what the page itself registers one of the document or the window. Called by sides.js.
 * @param {Sides} sides @param {Race} race
 * @returns {{isByLibrary?: boolean, ofPage?: ''|'script'|'callback', script?: {file: string, place: Place|null}, tag?: string, otherwise?: string, isLink?: boolean}}
 */
function lookUpOf(sides, race) {
  const { words, elements } = sides;
  const { location, modes, lines, actions } = race;
  const reader = modes.indexOf('r');
  if (!location.startsWith('slot ') || reader < 0) return {};
  const { list } = words.actions;
  const writer = actions[1 - reader];
  const isByLibrary = !!wayOf(words, lines[1 - reader], location, words.placeOfAccess(lines[1 - reader], writer));
  const script = scriptOf(sides, lines[1 - reader], list[list[writer].first].words);
  const from = list[list[writer].first].words[0] === 'exec' ? 'script' : 'callback';
  const ofPage = !isByLibrary && elements.isOfPage(location.split(' ')[1]) ? from : '';
  const { words: [word, , element, type] } = list[list[actions[reader]].first];
  if (!EVENTS.has(word) || word === 'wfire') return { isByLibrary, ofPage, script };
  const otherwise = elements.withoutHandler(element, words.unescape(type));
  return { isByLibrary, ofPage, script, tag: elements.tagOf(element), otherwise, isLink: otherwise.startsWith('follows') };
}

/**
 * The script of an action that registers a handler in a library, without a call of the page's own code that is known.
 * @param {Sides} sides @param {number} line of the trace @param {string[]} action the words of its record
 */
function scriptOf({ words, elements, problems }, line, [word, element]) {
  const place = words.placeOfLine(line);
  const isOwn = !place || !words.isOfLibrary(place) || !!problems.names.callers?.[line];
  const file = word === 'exec' && !isOwn ? elements.fileOf(element) : '';
  return file ? { file, place: words.placeOfElement(element) } : undefined;
}

/**
 * Whether libraries make both accesses, and one of them in no call of the page's own code that is known. Called by sides.js.
 * @param {Sides} sides @param {Race} race
 */
function isInLibraries({ words, problems }, { lines }) {
  const places = lines.map((line) => words.placeOfLine(line));
  return places.every((place) => place && words.isOfLibrary(place)) && lines.some((line) => !problems.names.callers?.[line]);
}

/**
 * The replies of a race between the replies of two requests; undefined of any other race. Called by sides.js.
 * @param {Sides} sides @param {Race} race @returns {Replies|undefined}
 */
function repliesOf(sides, race) {
  const { problems, words } = sides;
  const [one, other] = race.actions.map((action) => problems.userActs.requestOf(action));
  if (!one || !other || one === other) return undefined;
  const sentAt = (/** @type {string} */ request) => words.actions.declaredAt.get(`send ${request}`) || 0;
  const isInOrder = sentAt(one) <= sentAt(other);
  const names = [one, other].map((request) => sides.callbacks.request(request).replace(/[?#].*$/, ''));
  const [older, newer] = isInOrder ? names : names.reverse();
  const isOneCallback = problems.isOneCallback(race);
  const updates = race.lines.filter((line, k) => problems.accesses.isUpdate(line, race.actions[k], race.location)).length;
  const replace = problems.isReplaced(race) ? 'both' : problems.isWhole(race) && updates === 1 ? 'one' : '';
  return { older, newer, isOneCallback, isInOrder, replace };
}

module.exports = { EVENTS, isInLibraries, lookUpOf, repliesOf };
