'use strict';
// What the list, the view and other tools say of a problem: a sentence for each pattern, with the place that the page's author would change.

/**
 * @typedef {import('./patterns/table.js').LookKey} LookKey
 * @typedef {import('./sides.js').Side} Side
 */
/**
 * What a sentence is made of: the two sides of a race in the order of the list, what acts in each as the subject of a sentence, the thing that they touch
 * and the field that a user fills in, in words. `isReplaced`: each side writes all of the thing, and keeps nothing of what was there. `otherwise`: what the
 * browser does for an event without a handler. `replies`: of two replies, their requests. `ofOneAct`: both sides come from one act of a user, as handlers or in another way.
 * `ended`: a callback, and where code clears it.
 * @typedef {{sides: [Side, Side], subjects: [string, string], thing: string, field: string, modes: string, kind: string, isReplaced: boolean, otherwise?: string, replies?: import('./race-facts.js').Replies, ofOneAct?: ''|'handlers'|'others', ended?: {callback: string, place: string}|null}} Facts
 */

/** @param {string} text */
const capital = (text) => text.slice(0, 1).toUpperCase() + text.slice(1);
/** @param {string} word */
const withArticle = (word) => `${/^[aeiou]/i.test(word) ? 'an' : 'a'} ${word}`;

/** @param {Side} side a dispatch that looks for handlers */
const eventOrActor = ({ event, actor }) => (event ? withArticle(event) : actor);

/**
 * The place that comes after the sentence is that of the first side, so this side comes last in it.
 * @param {Facts} facts
 */
function neutral({ sides, subjects: [one, other], thing, modes, kind, isReplaced }) {
  if (kind === 'handler' && modes !== 'ww') return `${other} may remove the handler before or after ${eventOrActor(sides[0])}`;
  if (kind === 'handler') return `${other} may register or remove a handler of ${thing} before or after ${one} does`;
  if (modes === 'ww' && isReplaced) return `${thing} keeps what is written last, by ${other} or by ${one}`;
  const change = kind === 'element' ? 'add or change' : 'write';
  return `${other} may ${change} ${thing} before or after ${one} ${modes === 'ww' ? 'does' : READS[sides[0].verb] || 'reads it'}`;
}

/**
 * Both replies are named if two callbacks take them; of one callback, the entry has one of many pairs.
 * @param {Facts} facts
 */
function ofReplies({ replies, thing }) {
  const { older = '', newer = '', isOneCallback = true } = replies || {};
  if (!isOneCallback && older !== newer) return `the reply of ${older} may come after that of ${newer}, and both write ${thing.replace(/^the content of /, '')}`;
  return `an older reply${older && older === newer ? ` of ${older}` : ''} may come after a newer one`;
}

/** @type {{[verb: string]: string}} by the verb of a side */
const READS = { 'looks up': 'looks it up', 'writes again': 'writes it again' };

/** @type {Record<LookKey, (facts: Facts) => string>} */
const SENTENCES = {
  late: ({ sides, otherwise }) => (otherwise ? `until its handler is registered, ${eventOrActor(sides[1])} only ${otherwise}` : `${eventOrActor(sides[1])} is lost until its handler is registered`),
  field: ({ field, modes }) => `what is typed into ${field} ${modes === 'ww' ? 'is overwritten' : 'may be overwritten before it is read'}`,
  act: ({ sides, thing }) => `${thing}, set after ${sides[1].act || 'an act of the user'}, may be overwritten`,
  undefined: ({ thing, kind }) => `${thing} may not be ${kind === 'element' ? 'in the page' : thing.startsWith('`') ? 'defined' : 'set'} yet`,
  missed: ({ sides }) => `${eventOrActor(sides[1])} may come before its handler is registered`,
  replies: ofReplies,
  other: neutral,
  flag: ({ thing }) => `${thing} is a flag that one side sets and the other side reads`,
  ended: ({ ended }) => `${ended?.callback}${ended?.callback.includes(', ') ? ',' : ''} may run before ${ended?.place || 'other code'} clears it`,
  counter: ({ thing }) => `${thing} is counted up by both sides`,
  ticks: ({ thing }) => `two intervals of one delay tick in the order in which they were set, and reach ${thing}`,
  same: ({ thing }) => `${thing} gets the same value from both sides`,
  scratch: ({ thing }) => `each callback that uses ${thing} writes all of it first`,
  acts: ({ thing, ofOneAct }) => (ofOneAct === 'handlers' ? `one act of a user runs two handlers that reach ${thing}` : ofOneAct ? `one act of a user reaches ${thing} twice` : `two acts of a user reach ${thing}`),
};

/**
 * The sentence of a pattern, without its place. Called by sides.js.
 * @param {LookKey} look @param {Facts} facts
 */
const sentenceOf = (look, facts) => capital(SENTENCES[look](facts));

module.exports = { sentenceOf };
