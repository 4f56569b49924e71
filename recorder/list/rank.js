'use strict';
// The order of the list: by what a problem does to the user of the page. What a replay found comes first, then the pattern with its measured share of harm. It
// is the severity of a race: harmful ones come first. Used by listing.js.

const { APART, HARMLESS, IDLE, LINKS, SAME } = require('./patterns/table.js');

/**
 * @typedef {import('./patterns/table.js').Look} Look
 * @typedef {import('./types').Verdict} Verdict
 */
/**
 * A lower level comes first; of one level, the larger chance of harm. `reason` says both in words.
 * @typedef {{level: number, chance: number, reason: string}} Rank
 */

/**
 * By a pattern and its detail, such as `late choosing`: how many problems do harm, and how many were judged.
 * @typedef {{[kind: string]: [harmful: number, judged: number]}} Shares
 */
/**
 * Of the problems of documentation pages and of web applications that were drawn at random and judged by hand (docs/measured/rank.md).
 * @type {Shares}
 */
const JUDGED = {
  late: [0, 37], 'late choosing': [3, 8], field: [3, 3], act: [1, 11], undefined: [0, 8], 'undefined element': [1, 1], replies: [0, 2], other: [0, 28], same: [0, 1],
};
/**
 * What is assumed of a section, as if two more of its problems had been judged: a pattern of which few or none were judged is near it.
 * @type {{[part: string]: number}}
 */
const ASSUMED = { 'loses what a user does': 0.5, 'may throw': 0.2, other: 0.05, 'often harmless': 0.01 };
const WEIGHT = 2;
/** What is assumed of a lost event whose handler changed nothing when it ran: its section comes after those of all other patterns of a page. */
const ASSUMED_OF_IDLE = 0.001;
/** What is assumed of a click that follows a link without its handler: it comes after other lost events. */
const ASSUMED_OF_LINKS = 0.02;

const ERROR = 'an uncaught error';
const LOST_EVENTS = new Set(['a lost act', 'a lost event']);
/** The words of a verdict without any other difference than events that found no handler. */
const NOTHING_ELSE = 'nothing else differs that is looked at';

/** Of the judged problems whose replay lost an act, and with it more that is seen, how many did harm: a lost act is often one that the user repeats. */
const JUDGED_ACTS = [1, 4];
const ASSUMED_OF_ACTS = 0.5;
/** A pattern of which most do harm comes before a lost act, so both are in one level. */
const LEVELS = { error: 0, content: 1, chance: 2, event: 3, same: 4 };

/** @param {number[]} judged @param {number} assumed */
const shareOf = ([harmful, judged], assumed) => (harmful + WEIGHT * assumed) / (judged + WEIGHT);

/**
 * What the judged problems tell apart: a pattern, with its detail.
 * @param {{look: string, detail?: string}} look
 */
const kindOf = ({ look, detail }) => (detail ? `${look} ${detail}` : look);

/**
 * The chance of harm of a pattern.
 * @param {Pick<Look, 'look'|'part'|'detail'|'isIdle'|'comesAgain'|'link'>} look
 * @param {Shares} judged
 */
function chanceOf(look, judged) {
  if (look.isIdle) return ASSUMED_OF_IDLE;
  if (look.link === 'click') return ASSUMED_OF_LINKS;
  return shareOf(judged[kindOf(look)] || [0, 0], ASSUMED[look.comesAgain ? HARMLESS : look.part] ?? 0);
}

/** @type {{[detail: string]: string}} */
const OF_DETAIL = { '': '', choosing: ', of an event by which a user chooses,', element: ', of an element that is looked up,', read: ', of a field that is read later,', one: ', of one act,' };

/** @param {Look} look @param {Shares} shares */
function reasonOf(look, shares) {
  if (look.isIdle) return 'its handler ran, and changed nothing that is recorded';
  if (look.link === 'click') return 'without its handler, a click follows the link';
  const [harmful, judged] = shares[kindOf(look)] || [0, 0];
  const pattern = `the pattern "${look.name}"${OF_DETAIL[look.detail]}`;
  return judged ? `of ${judged} judged problems of ${pattern} ${harmful} did harm` : `no problem of ${pattern} was judged`;
}

/**
 * Whether more differs than that an event found no handler. What other races do does not count.
 * @param {Verdict} verdict
 */
function hasVisible({ differences, words }) {
  return differences ? differences.some(({ kind, from }) => kind !== 'event' && !from) : !words.includes(NOTHING_ELSE);
}

/**
 * @param {Verdict} verdict that of a race that was reversed
 * @returns {{level: number, reason: string, chance?: number}}
 */
function levelOf(verdict) {
  const effect = verdict.kind ? verdict.ownEffect : verdict.effect;
  if (!effect && verdict.kind === 'others') return { level: LEVELS.same, reason: 'run again in the other order: only another race makes a difference' };
  if (!effect) return { level: LEVELS.same, reason: 'run again in the other order: no visible difference' };
  if (effect === ERROR) return { level: LEVELS.error, reason: 'run again: an uncaught error in one order only' };
  const reason = `run again in the other order: ${effect}`;
  if (!LOST_EVENTS.has(effect)) return { level: LEVELS.content, reason };
  if (!hasVisible(verdict)) return { level: LEVELS.event, reason: `${reason}, and nothing else differs` };
  return { level: LEVELS.chance, reason: `${reason}, and the page differs`, chance: shareOf(JUDGED_ACTS, ASSUMED_OF_ACTS) };
}

/**
 * A verdict without what a link does by itself: it changes the hash of the address.
 * @param {Pick<Look, 'link'>} look @param {Verdict} verdict
 * @returns {Verdict}
 */
const ofLook = ({ link }, verdict) => (link && verdict.differences ? { ...verdict, differences: verdict.differences.filter(({ kind }) => kind !== 'hash') } : verdict);

/**
 * @param {Look} look
 * @param {Verdict} [verdict]
 * @param {Shares} [judged]
 * @returns {Rank}
 */
function rankOf(look, verdict, judged = JUDGED) {
  const found = verdict?.verdict === 'turned' ? levelOf(ofLook(look, verdict)) : { level: LEVELS.chance, reason: reasonOf(look, judged) };
  return { chance: chanceOf(look, judged), ...found };
}

/**
 * The section of a problem: that of its pattern; of late handlers that changed nothing, whose event comes again, or of links, another one, unless a replay found
 * that more differs without the handler; and one of its own if a replay found no visible difference. It never contradicts the usual change (fixes.js).
 * @param {Look} look
 * @param {Verdict} [verdict]
 */
function partOf(look, verdict) {
  const level = verdict?.verdict === 'turned' ? levelOf(ofLook(look, verdict)).level : LEVELS.event;
  const isIdle = look.isIdle || (look.isOfLittle && !!verdict?.isReader); // it ran in the recording or in a replay, and only read
  const part = level < LEVELS.event ? look.part : isIdle ? IDLE : look.link === 'click' ? LINKS : look.comesAgain ? HARMLESS : look.part;
  const isUsuallyNone = part === IDLE || part === HARMLESS || part === APART;
  return level === LEVELS.same && !isUsuallyNone ? SAME : part;
}

/** @param {Rank} a @param {Rank} b */
const compareRanks = (a, b) => a.level - b.level || b.chance - a.chance;

/**
 * A list in the order of its ranks, section by section: a section is where its first problem by the rank is. What is known comes last, and what is equal
 * stays in its order.
 * @template T
 * @param {T[]} list @param {(one: T) => {rank: Rank, part: string, isKnown: boolean}} factsOf
 */
function sortByRank(list, factsOf) {
  const all = list.map((one) => ({ one, ...factsOf(one) }));
  all.sort((a, b) => Number(a.isKnown) - Number(b.isKnown) || compareRanks(a.rank, b.rank));
  const parts = [...new Set(all.map(({ part }) => part))];
  all.sort((a, b) => Number(a.isKnown) - Number(b.isKnown) || parts.indexOf(a.part) - parts.indexOf(b.part));
  return all.map(({ one }) => one);
}

module.exports = { rankOf, partOf, kindOf, sortByRank, JUDGED };
