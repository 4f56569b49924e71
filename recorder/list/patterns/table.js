'use strict';
// The patterns: the name and the section of the list for each. Their order only decides between problems of one rank (list/rank.js). Categories of races.

const LOSES = 'loses what a user does';
const THROWS = 'may throw';
const REST = 'other';
const HARMLESS = 'often harmless';
/** The section of late handlers that ran in the recording and changed nothing in it, and without which a user loses little (idle.js). */
const IDLE = 'late handlers that changed nothing';
/** The section of clicks at links that a late handler does not take: the browser follows the link, which may lead to the same content. */
const LINKS = 'links that work without their handler';
/** The section of problems that would be in another one, if a replay found no visible difference. */
const SAME = 'no visible difference when replayed';
/** The section of two acts of a user against each other: a page is not at fault for their order. */
const APART = 'only another input of the user changes the order';

/** By key: the short name, and the section of the list. */
const LOOKS = {
  late: { name: 'late handler', part: LOSES },
  field: { name: 'overwritten field', part: LOSES },
  act: { name: 'overwritten act', part: LOSES },
  undefined: { name: 'use before definition', part: THROWS },
  missed: { name: 'late handler of the page', part: THROWS },
  replies: { name: 'overwriting replies', part: REST },
  other: { name: 'other', part: REST },
  flag: { name: 'flag that both ask', part: HARMLESS },
  ended: { name: 'ended callback', part: HARMLESS },
  counter: { name: 'counter', part: HARMLESS },
  ticks: { name: 'first ticks of intervals', part: HARMLESS },
  same: { name: 'same value', part: HARMLESS },
  scratch: { name: 'scratch value', part: HARMLESS },
  acts: { name: 'act against act', part: APART },
};

/** @typedef {keyof typeof LOOKS} LookKey */
/**
 * A pattern as it was found in a race: `seen` says in words what was seen, and `here` which of the two orders the recording had; `rank` is its index in the
 * table. `detail` tells races of a pattern apart that do harm more often than others (list/rank.js). Of a late handler: `isUnchanged`, it ran and changed nothing;
 * `isOfLittle`, a user loses little without it if it changes nothing (idle.js); `isIdle`, both; `comesAgain`, its event comes again by itself; `link`, its event is
 * the click at a link that leads somewhere, or comes along with it.
 * @typedef {{isUnchanged: boolean, isIdle: boolean, isOfLittle: boolean, comesAgain: boolean, link: ''|'click'|'part'}} Lateness
 * @typedef {{look: LookKey, rank: number, name: string, part: string, seen: string, here: string, detail: Detail} & Lateness} Look
 */
/**
 * An event by which a user chooses something is lost; an element is looked up; a field is read, not written again; one act of a user is on both sides.
 * @typedef {''|'choosing'|'element'|'read'|'one'} Detail
 */

/** What is said of a handler that ran and changed nothing. */
const UNCHANGED = ', and changed nothing that is recorded';

/** Events by which a user chooses, changes or submits something. Others, as of the mouse that moves, of a key or of a scroll, come again soon. */
const CHOOSING = new Set(['click', 'dblclick', 'change', 'input', 'submit']);
/** Events that come again by themselves, with the next move of a pointer over an element. */
const COMES_AGAIN = /^(?:mouse|pointer)(?:over|out|enter|leave|move|rawupdate)$/;

/**
 * A part of a pattern whose share of harm was judged apart (../rank.js).
 * Called by list/looks.js.
 * @param {LookKey} look
 * @param {string} word the first word of the race's location
 * @param {string} event of a handler, else ''
 * @returns {Detail}
 */
function detailOf(look, word, event) {
  if (look === 'late' && CHOOSING.has(event)) return 'choosing';
  return look === 'undefined' && word === 'elem' ? 'element' : '';
}

/**
 * Whether an event comes again by itself. Called by list/looks.js.
 * @param {string} event its type
 */
const isAgain = (event) => COMES_AGAIN.test(event);

const RANKS = /** @type {LookKey[]} */ (Object.keys(LOOKS));

/** @type {Map<string, Look>} */
const known = new Map();

/**
 * A pattern with what was seen: one object for all races that have it. Called by list/looks.js.
 * @param {LookKey} look @param {string} seen @param {Detail} detail @param {Partial<Lateness>} lateness
 * @returns {Look}
 */
function lookOf(look, seen = '', detail = '', { isUnchanged = false, isIdle = false, isOfLittle = isIdle, comesAgain = false, link = '' } = {}) {
  const key = `${look} ${detail} ${isUnchanged} ${isIdle} ${isOfLittle} ${comesAgain} ${link} ${seen}`;
  let one = known.get(key);
  const here = /(?:^|[;:] )here (.*)$/.exec(seen)?.[1] || '';
  if (!one) known.set(key, one = { look, rank: RANKS.indexOf(look), ...LOOKS[look], seen, here, detail, isUnchanged, isIdle, isOfLittle, comesAgain, link });
  return one;
}

/**
 * By which pattern a line is shown if it covers several, the lowest first: typed text that is lost comes before events, and a late handler that changed nothing
 * or whose event comes again after all that may do harm, except if it changed nothing and a user chooses something by its event. Two acts of a user come before
 * one, of which the browser decides the order. A click at a link comes after other clicks, then one whose
 * handler changed nothing.
 * @param {Pick<Look, 'look'|'rank'|'detail'|'isUnchanged'|'isIdle'|'comesAgain'|'link'>} look
 */
function severityOf({ look, rank, detail, isUnchanged, isIdle, comesAgain, link }) {
  if (isIdle || comesAgain || (isUnchanged && detail !== 'choosing')) return RANKS.indexOf('other') + 1 / 2;
  if (look === 'field') return -2;
  if (look === 'late') return detail === 'choosing' ? -1 / ((link ? 2 : 1) * (isUnchanged ? 3 : 1)) : RANKS.indexOf('act') + 1 / 2;
  return detail === 'one' ? rank + 1 / 2 : rank;
}

/**
 * Called by list/problems.js.
 * @param {Look} one
 * @param {Look} other whether a line is rather shown by the first pattern
 */
const isWorse = (one, other) => severityOf(one) < severityOf(other);

/**
 * Whether a problem has the first pattern rather: it is worse, or its handler changed something, which the words "changed nothing" deny. Called by list/problems.js.
 * @param {Look} one @param {Look} other
 */
const isRather = (one, other) => isWorse(one, other) || (one.look === other.look && !one.isUnchanged && other.isUnchanged && !isWorse(other, one));

/**
 * Called by list/problems.js.
 * @param {{part: string}} look
 */
const isHarm = ({ part }) => part === LOSES || part === THROWS;

/**
 * Whether a problem has a line of its own even if another problem's line covers it: a fix of that one may leave this one, and only its own words say
 * what is lost. Called by list/problems.js.
 * @param {{look: LookKey}} look
 */
const isAlwaysTold = ({ look }) => look === 'field' || look === 'act' || look === 'undefined' || look === 'replies';

module.exports = { LOOKS, RANKS, APART, HARMLESS, IDLE, LINKS, SAME, UNCHANGED, isAgain, lookOf, detailOf, isRather, isWorse, isHarm, isAlwaysTold };
