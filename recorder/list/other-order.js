'use strict';
// Which order of two sides the recording had, what the other order does, and a change that fits, for the line `recorded` of an entry and its usual change.

const { assignedAt } = require('./patterns/assignments.js');

/**
 * @typedef {import('./patterns/table.js').LookKey} LookKey
 * @typedef {import('./sentences.js').Facts} Facts
 * @typedef {import('./sides.js').Sides} Sides
 * @typedef {import('./types').Race} Race
 */
/**
 * What of a problem without a known harm an author can change: what reads an older value can keep it or stop, what an act of the user reads can be waited for,
 * one of two writers can check, parts can have elements of their own.
 * @typedef {''|'reply'|'timeout'|'use'|'writers'|'parts'|'removal'} Change
 */

const RUN = /, (run \d+)$/;
/** Patterns that say themselves which order the recording had, and what the other one does. */
const SAY = new Set(['late', 'missed', 'field', 'act', 'undefined']);

/**
 * A side as the subject of a sentence; '' if it has no words that the other side lacks. Two acts of a user are two events.
 * @param {number} k @param {LookKey} look @param {Facts} facts
 */
function nameOf(k, look, { sides, subjects, kind, ofOneAct }) {
  if (kind === 'handler' && sides[k].event) return `the ${sides[k].event}`;
  const acts = sides.map(({ act }) => act);
  if (look === 'acts' && !ofOneAct && acts[0] && acts[1] && acts[0] !== acts[1]) return acts[k];
  const [run, other] = [sides[k], sides[1 - k]].map(({ actor }) => RUN.exec(actor)?.[1]);
  if (run && other) return run;
  return subjects[0] === 'another one' ? '' : subjects[k];
}

/**
 * What a side in the recording's second place does if it comes first, and the other way round: as the end of a sentence; '' if this is unknown.
 * @param {Sides} sides @param {Race} race @param {Facts} facts @param {string[]} names of the earlier and the later side
 */
function otherOrder({ problems }, { modes, lines, actions, location }, { kind, isReplaced }, [earlier, later]) {
  if (kind === 'handler') return modes === 'rw' ? 'the event finds no handler' : modes === 'wr' ? 'the event finds the handler' : '';
  if (kind === 'element') return modes === 'rw' ? `${earlier} finds what ${later} adds or changes` : modes === 'wr' ? `${later} does not find what ${earlier} adds or changes` : '';
  if (modes === 'rw') return `${earlier} reads what ${later} writes`;
  if (modes === 'wr') return `${later} reads the value from before`;
  if (isReplaced) return `what ${earlier} writes stays`;
  const [first, second] = lines.map((line, k) => problems.accesses.isUpdate(line, actions[k], location));
  if (!problems.isWhole({ location, modes })) return 'what the two write has another order';
  if (first && !second) return `${earlier} goes on from what ${later} writes`;
  return !first && second ? `what ${later} does to the value is overwritten` : '';
}

/** @type {{[word: string]: Change}} by the word of an action of which code can do without the end */
const DEFERRED = { reply: 'reply', timer: 'timeout', tick: 'timeout', anim: 'timeout' };

/**
 * What an author can change.
 * @param {Sides} sides @param {Race} race @param {Facts} facts
 * @returns {Change}
 */
function changeOf({ problems, words }, { modes, actions, location }, { kind }) {
  if (kind === 'handler') return modes.includes('r') ? 'removal' : '';
  if (kind !== 'variable') return '';
  const { list } = words.actions;
  const { userActs } = problems;
  const wordOf = (/** @type {number} */ action) => (userActs.requestOf(action) ? 'reply' : list[list[action].first].words[0]);
  if (modes === 'ww') return problems.isWhole({ location, modes }) ? 'writers' : / content$/.test(location) ? 'parts' : '';
  const reader = actions[modes.indexOf('r')];
  if (userActs.actOf(reader)) return 'use';
  return DEFERRED[wordOf(reader)] || '';
}

/**
 * Which order the recording had, in words, and what an author can change of a problem without a known harm. Called by sides.js.
 * @param {Sides} sides @param {Race} race @param {LookKey} look @param {number} first the side that is shown first @param {Facts} facts
 * @returns {{recorded: string, turned: string, change: Change}} `recorded` is '' if the pattern says it; `turned` is what the other order does, if that is known
 */
function orderOf(sides, race, look, first, facts) {
  if (SAY.has(look)) return { recorded: '', turned: '', change: '' };
  if (facts.replies) return { recorded: facts.replies.isInOrder ? 'the replies came in the order of their requests' : 'the newer reply came first', turned: '', change: '' };
  const earlier = first === 0 ? 0 : 1;
  const names = [earlier, 1 - earlier].map((k) => nameOf(k, look, facts));
  const came = `${names[0] || `the access at ${facts.sides[earlier].place || 'the first place'}`} came first`;
  const other = look === 'other' && names.every(Boolean) ? otherOrder(sides, race, facts, names) : '';
  const change = look === 'other' ? changeOf(sides, race, facts) : '';
  return { recorded: `${came}${other && `; in the other order ${other}`}`, turned: other && `if ${names[1]} comes first, ${other}`, change };
}

/**
 * What a side writes to a variable or a property, as the page's own code has it; '' if this is unknown. Called by sides.js.
 * @param {Sides} sides @param {Race} race @param {number} k
 */
function writtenOf({ words }, { modes, lines }, k) {
  const place = modes[k] === 'w' ? words.placeOfLine(lines[k]) : null;
  return place && !words.isOfLibrary(place) ? assignedAt(words.sources, place) : '';
}

module.exports = { orderOf, writtenOf };
