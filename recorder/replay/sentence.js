'use strict';
// What a replay found of a race, as one short sentence for the list: what the other order does to the page and its user, by the kind of effect.

const { isOnlyOfOthers, ofOthers, ownOf, suspectsOf } = require('./attribution.js');

/** @typedef {import('./types').Difference} Difference */
/** @typedef {import('./types').Result} Result */
/**
 * Where the list has a race: the place at the start of its problem and of its entry ('' if it has none), and the number of the entry, -1 if it has none.
 * @typedef {{own: string, place: string, index: number}} Where
 */

const LONGEST = 100;
const LONGEST_WHY = 240;
const MOST_PLACES = 3;
const NONE = 'none';
const READS_ONLY = 'the handler changed nothing that is recorded';
/** @type {Where} */
const NOWHERE = { own: '', place: '', index: -1 };

/** @param {string} text */
const cut = (text) => (text.length > LONGEST ? `${text.slice(0, LONGEST)}..` : text);
/** @param {string} text */
const quoted = (text) => `"${cut(text)}"`;
/** @param {Difference} one whether only the other order has it */
const isNew = ({ recorded }) => recorded === NONE;
/** @param {string} request `METHOD ADDRESS` */
const fileOf = (request) => request.replace(/^GET /, '').replace(/https?:\/\/\S*\/(?=[^/]+$)/, '');

/**
 * A value in the other order, and the recorded one.
 * @param {string} subject
 * @param {Difference} one
 */
function valueIn(subject, { recorded, other }) {
  if (other === NONE) return `${subject} is not set`;
  return recorded === NONE ? `${subject} is ${quoted(other)}, and not set as recorded` : `${subject} is ${quoted(other)} instead of ${quoted(recorded)}`;
}

/**
 * The event and the handler of a lost event.
 * @param {Difference} one
 */
function ofEvent({ subject, recorded }) {
  const [, event = subject, handler = 'its handler'] = /^(.*?): (.*)$/.exec(subject) || [];
  return recorded === 'not run' ? `${event} finds ${handler}` : `${event} does not find ${handler}`;
}

/**
 * What the other order does, by the kind of the difference.
 * @type {{[kind: string]: (one: Difference) => string}}
 */
const CLAUSES = {
  error: (one) => (isNew(one) ? `an uncaught error: ${cut(one.subject)}` : `without the uncaught error ${cut(one.subject)}`),
  'console error': (one) => (isNew(one) ? `an error in the console: ${cut(one.subject)}` : `without the error in the console ${cut(one.subject)}`),
  event: ofEvent,
  text: (one) => (isNew(one) ? `the text ${quoted(one.subject)} appears` : `the text ${quoted(one.subject)} is missing`),
  'order of lines': () => 'the lines of the text are in another order',
  element: (one) => (isNew(one) ? `the element ${cut(one.subject)} is in the page` : `the element ${cut(one.subject)} is missing`),
  dialog: (one) => (isNew(one) ? `a dialog opens: ${cut(one.subject)}` : `the dialog ${quoted(one.subject)} does not open`),
  field: (one) => valueIn(`the ${one.subject}`, one),
  storage: (one) => valueIn(one.subject, one),
  title: (one) => valueIn('the title', one),
  hash: (one) => valueIn('the hash of the address', one),
  focus: ({ recorded, other }) => `the focus is on ${other || 'nothing'} instead of ${recorded || 'nothing'}`,
  load: ({ other }) => `the load event of the window ${other}`,
  request: ({ subject, other }) => `${cut(fileOf(subject))} is ${other === 'made' ? '' : 'not '}requested`,
  picture: () => 'the picture of the page differs',
  suite: ({ other }) => `the suite fails (status ${other})`,
};

/**
 * What differs, as the subject of a sentence, and its verb.
 * @type {{[kind: string]: (one: Difference) => [subject: string, verb: string]}}
 */
const SUBJECTS = {
  error: (one) => [`the uncaught error ${cut(one.subject)}`, isNew(one) ? 'comes' : 'is missing'],
  'console error': (one) => [`the error in the console ${cut(one.subject)}`, isNew(one) ? 'comes' : 'is missing'],
  text: () => ['the text', 'differs'],
  'order of lines': () => ['the order of the lines', 'differs'],
  element: (one) => [`the element ${cut(one.subject)}`, isNew(one) ? 'comes' : 'is missing'],
  dialog: (one) => [`the dialog ${quoted(one.subject)}`, isNew(one) ? 'opens' : 'is missing'],
  field: (one) => [`the ${one.subject}`, 'differs'],
  title: () => ['the title', 'differs'],
  hash: () => ['the hash of the address', 'differs'],
  focus: () => ['the focus', 'differs'],
  load: () => ['the load event of the window', 'differs'],
  request: (one) => [`the request of ${cut(fileOf(one.subject))}`, one.other === 'made' ? 'comes' : 'is missing'],
  picture: () => ['the picture of the page', 'differs'],
};

/**
 * A text that only one order has, and the text in its place.
 * @param {Difference} one
 * @param {Difference[]} all
 */
function withOther(one, all) {
  const other = one.kind === 'text' && all.filter(({ kind }) => kind === 'text').length === 2 && all.find((each) => each.kind === 'text' && isNew(each) !== isNew(one));
  if (!other) return null;
  const [added, missing] = isNew(one) ? [one, other] : [other, one];
  return `the text is ${quoted(added.subject)} instead of ${quoted(missing.subject)}`;
}

/**
 * @param {Difference} one
 * @param {Difference[]} all
 */
const clauseOf = (one, all) => withOther(one, all) || (CLAUSES[one.kind] || (() => valueIn(one.subject, one)))(one);

/**
 * The sentence of a race that differs. An event that finds no handler says nothing of what its user sees, so what else differs comes with it.
 * @param {Difference[]} differences
 * @param {Difference} worst
 */
function ofDifferences(differences, worst) {
  const clause = clauseOf(worst, differences);
  if (worst.kind !== 'event') return `in the other order ${clause}`;
  const visible = differences.find(({ kind }) => kind !== 'event' && kind !== 'picture') || differences.find(({ kind }) => kind === 'picture');
  return `in the other order ${clause}, and ${visible ? clauseOf(visible, differences) : 'nothing else differs'}`;
}

/**
 * The sentence of a race that turned and made no difference that a user sees.
 * @param {Result} result
 */
function ofNone({ byDelay = [], unsteady = [] }) {
  if (byDelay.some(({ isSeen }) => isSeen)) return 'no visible difference, except what a delay in the recorded order does too';
  return unsteady.some(({ isSeen }) => isSeen) ? 'no visible difference, except what differs by itself' : 'no visible difference';
}

/**
 * Whether the words of a handler have a place: `at app.js:4` is not in `at app.js:43`.
 * @param {string} words
 * @param {string} place
 */
function isAt(words, place) {
  const start = words.indexOf(`at ${place}`);
  return start >= 0 && !/^\d/.test(words.slice(start + `at ${place}`.length));
}

/**
 * Of several events that find no handler, that of the race itself.
 * @param {Difference[]} differences
 * @param {Difference} worst
 * @param {string} location
 * @param {string} place of the race's handler
 */
function eventOf(differences, worst, location, place) {
  const [, type] = /^slot \d+ ([^/\s]+)/.exec(location) || [];
  const own = differences.filter(({ kind, isOfUser, subject }) => kind === worst.kind && isOfUser === worst.isOfUser && subject.startsWith(`the ${type} `));
  if (worst.kind !== 'event') return worst;
  return own.find(({ subject }) => place && isAt(subject, place)) || own[0] || worst;
}

/**
 * A lost event in the words of the list: these have the text or the classes of an element without an id.
 * @param {Difference} one
 * @param {string} event
 */
function withLabel(one, event) {
  const [, words = '', rest = ''] = /^the (.*?)(: .*)$/.exec(one.subject) || [];
  const isLonger = one.kind === 'event' && words && event.startsWith(words) && /^[ .]/.test(event.slice(words.length));
  return isLonger ? { ...one, subject: `the ${event}${rest}` } : one;
}

/**
 * Other races in words: the places of their entries in the list. Called by verdict.js.
 * @param {number[]} numbers
 * @param {Where} own
 * @param {(number: number) => Where} whereOf
 * @param {boolean} [hasOrder] whether the words say if an entry is above or below
 */
function racesInWords(numbers, own, whereOf, hasOrder = false) {
  const all = numbers.map(whereOf);
  const inOrder = (/** @type {Where} */ { place, index }) => (hasOrder ? `${place} (${index < own.index ? 'above' : 'below'})` : place);
  const places = [...new Set(all.filter(({ place, index }) => place && index !== own.index).map(inOrder))];
  if (!places.length) {
    const ofEntry = all.every(({ index }) => index >= 0 && index === own.index) ? ' of this entry' : '';
    return numbers.length > 1 ? `${numbers.length} other races${ofEntry}` : `another race${ofEntry}`;
  }
  const more = places.length - MOST_PLACES;
  return `${hasOrder ? '' : `the race${places.length > 1 ? 's' : ''} at `}${places.slice(0, MOST_PLACES).join(', ')}${more > 0 ? ` and ${more} more place${more > 1 ? 's' : ''}` : ''}`;
}

/**
 * What differs only since other races came in the other order too, and which.
 * @param {Result} result
 * @param {Where} own
 * @param {(number: number) => Where} whereOf
 */
function ofOthersInWords(result, own, whereOf) {
  const others = ofOthers(result);
  const one = others.find(({ kind }) => kind !== 'picture') || others[0];
  const [subject, verb] = (SUBJECTS[one.kind] || (() => [one.subject, 'differs']))(one);
  const start = result.isReader ? READS_ONLY : 'it makes no difference of its own';
  return `${start}; ${subject} ${verb} too, which comes from ${racesInWords(one.from || [], own, whereOf, true)}`;
}

/**
 * A race that could not be reversed. It may have come in the other order all the same.
 * @param {Result} result
 */
function ofNotTurned({ why = '', chance }) {
  const short = why.length > LONGEST_WHY ? `${why.slice(0, LONGEST_WHY).replace(/ [^ ]*$/, '')} ..` : why;
  if (!chance?.turned.length) return `could not be turned, which says nothing about the race: ${short}`;
  return `it happened: in ${chance.turned.length} of ${chance.turned.length + chance.kept.length} further runs the two came in the other order by themselves; the ends of these runs are not compared`;
}

/**
 * The sentence of a race for the list, by what its replay found.
 * Called by verdict.js.
 * @param {Result} result
 * @param {Difference|undefined} worst the worst of its own differences, if there is one
 * @param {string} location of the race
 * @param {number} number of the race
 * @param {(number: number) => Where} whereOf where the list has a race
 * @param {string} event of the race, as the list has it; '' if it has none
 */
function sentenceOf(result, worst, location = '', number = 0, whereOf = () => NOWHERE, event = '') {
  if (result.verdict !== 'turned') return ofNotTurned(result);
  const where = whereOf(number);
  if (isOnlyOfOthers(result)) return ofOthersInWords(result, where, whereOf);
  const own = ownOf(result);
  const found = worst ? ofDifferences(own, withLabel(eventOf(own, worst, location, where.own), event)) : ofNone(result);
  const some = suspectsOf(result);
  const isOfEntry = where.index >= 0 && some.every((one) => whereOf(one).index === where.index);
  if (!some.length || (worst && isOfEntry)) return found; // one change mends the entry, whichever of its races it comes from
  const others = racesInWords(some, where, whereOf);
  if (!worst) return `${found}; ${others} came in another order too`;
  return `${found}; ${result.isReader ? `${READS_ONLY}, so ` : ''}some of it may come from ${others}, which came in another order too`;
}

module.exports = { NOWHERE, racesInWords, sentenceOf };
