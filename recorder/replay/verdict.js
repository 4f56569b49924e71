'use strict';
// The verdict of a replay on a race: in words, by its worst effect, and as OUT.replay.json contains it. Harmful: an error, a lost act or another effect;
// harmless: no visible difference.

const { isOnlyOfOthers, ofOthers, ownOf, suspectsOf } = require('./attribution.js');
const { someInWords } = require('./found/compare.js');
const { otherWayInWords } = require('./found/lawful.js');
const { NOWHERE, racesInWords, sentenceOf } = require('./sentence.js');

/** @typedef {import('./types').Result} Result */
/** @typedef {import('./types').Difference} Difference */
/** @typedef {import('../races/types').Race} Race */
/** @typedef {{number: number, result: Result}} Numbered the result of a race, by the race's number */

/** @type {[string, string]} */
const SIDES = ['the recorded order', 'the other order'];
const MOST_BESIDE = 3;
/**
 * What a difference means for the user of the page, the worst first.
 * @type {{name: string, has: (difference: Difference) => boolean|undefined}[]}
 */
const EFFECTS = [
  { name: 'an uncaught error', has: ({ kind }) => kind === 'error' },
  { name: 'a lost act', has: ({ kind, isOfUser }) => kind === 'event' && isOfUser },
  { name: 'a lost input', has: ({ kind, isOfUser }) => kind === 'field' && isOfUser },
  { name: 'a lost event', has: ({ kind }) => kind === 'event' },
  { name: 'another content', has: ({ kind }) => ['text', 'order of lines', 'element', 'dialog', 'title', 'field', 'picture'].includes(kind) },
  { name: 'another state', has: () => true },
];
const VERDICTS = { differs: 'differs', others: 'differs only by another race', not: 'could not be turned', same: 'no visible difference' };

/**
 * The verdict in one word: `differs`, `same`, `others` (only another race made a difference), or `not` (not turned). Called by replay-results.js.
 * @param {Pick<Result, 'verdict'|'differences'>} result
 * @returns {'differs'|'others'|'same'|'not'}
 */
function verdictOf(result) {
  if (result.verdict !== 'turned') return 'not';
  if (isOnlyOfOthers(result)) return 'others';
  return ownOf(result).length ? 'differs' : 'same';
}

/**
 * The worst effect: its name, its rank and the difference that has it; null if nothing differs. Called by suite-replays.js.
 * @param {Pick<Result, 'differences'>} result
 */
function worstOf({ differences = [] }) {
  const rank = EFFECTS.findIndex(({ has }) => differences.some(has));
  return rank < 0 ? null : { name: EFFECTS[rank].name, rank, difference: differences.find((one) => EFFECTS[rank].has(one)) };
}

/**
 * The worst effect of the differences that no other race makes, as far as is known. Called by replay-results.js.
 * @param {Pick<Result, 'differences'>} result
 */
const worstOfOwn = (result) => worstOf({ differences: ownOf(result) });

/**
 * Sorts races that differ before others, the worst first; then those that could not be reversed; then the harmless ones. Called by replay-results.js.
 * @param {Numbered} a
 * @param {Numbered} b
 */
function orderOfResults(a, b) {
  const parts = Object.keys(VERDICTS);
  const rank = (/** @type {Numbered} */ { result }) => worstOfOwn(result)?.rank ?? EFFECTS.length;
  return parts.indexOf(verdictOf(a.result)) - parts.indexOf(verdictOf(b.result)) || rank(a) - rank(b) || a.number - b.number;
}

/**
 * What is said of runs in which the two came in the other order by chance.
 * @param {Result['chance']} chance
 * @param {boolean} isTurned
 */
function chanceInWords(chance, isTurned) {
  const the = isTurned ? 'the two' : 'but the two';
  if (!isTurned && chance?.implied.length) return `${the} turned with another race, as the rules have it (replays/${chance.implied[0]}.trace)`;
  if (!chance?.turned.length) return '';
  const of = `${chance.turned.length} of ${chance.turned.length + chance.kept.length}`;
  return `${the} came in the other order by themselves in ${of} runs in which nothing steered them (replays/${chance.turned[0]}.trace)`;
}

/**
 * Called by replay-results.js.
 * @param {Result['group']} group
 */
function groupInWords(group) {
  if (!group) return '';
  const { turned, kept, gone } = group;
  const all = turned.length + kept.length + gone.length;
  if (!all) return '';
  /** @type {[some: number[], where: string][]} */
  const orders = [[kept, 'in the recorded order'], [gone, 'did not come whole']];
  const others = orders.filter(([some]) => some.length).map(([some, where]) => `${some.length} ${where}`);
  return `with it ${turned.length} of ${all} other races of its group turned${others.length ? ` (${others.join(', ')})` : ''}`;
}

/**
 * The further notes on a race that was reversed.
 * @param {Result} result
 * @param {(numbers: number[]) => string} races in words
 */
function notesOf(result, races) {
  const { note, isSeenTwice, order, comparedAt, unsent = [], chance } = result;
  const astray = suspectsOf(result);
  const others = astray.length ? `${races(astray)} came in another order too${ownOf(result).length ? ', so some of it may come from there' : ''}` : '';
  const once = isSeenTwice === false ? 'a second run in this order was not had' : '';
  const kept = unsent.length ? `not sent again without --yes: ${unsent.join(', ')}` : '';
  return [note, once, others, otherWayInWords(order), comparedAt, kept, chanceInWords(chance, true)].filter(Boolean);
}

const seenOf = (/** @type {Difference[]} */ list = []) => list.filter(({ isSeen }) => isSeen);

/**
 * What differs in the other order: its own differences, and those of other races.
 * @param {Result} result
 * @param {(numbers: number[]) => string} races in words
 */
function differencesInWords(result, races) {
  const [own, others] = [ownOf(result), ofOthers(result)];
  const from = others.length ? races([...new Set(others.flatMap((one) => one.from || []))]) : '';
  if (isOnlyOfOthers(result)) return `differs only by ${from}: ${someInWords([...others, ...own], SIDES).join('; ')}`;
  if (!own.length) return '';
  const alone = own.every(({ kind }) => kind === 'event') ? '; nothing else differs that is looked at' : '';
  return `differs: ${someInWords(own, SIDES).join('; ')}${alone}${from ? `; and by ${from}: ${someInWords(others, SIDES).join('; ')}` : ''}`;
}

/**
 * The verdict on a race that came in the other order: what differs, else that nothing does; and what differs without the order too.
 * @param {Result} result
 * @param {(numbers: number[]) => string} races in words
 */
function turnedInWords(result, races) {
  const notes = notesOf(result, races).map((one) => `; ${one}`).join('');
  const delayed = seenOf(result.byDelay).length ? `, but what the delay alone does too: ${someInWords(seenOf(result.byDelay), SIDES).join('; ')}` : '';
  const differences = differencesInWords(result, races);
  if (differences) return `turned: ${differences}${delayed}${notes}`;
  const unsteady = seenOf(result.unsteady).length ? `, but in what differs by itself too: ${someInWords(seenOf(result.unsteady), SIDES).join('; ')}` : '';
  const lines = someInWords(result.beside || [], SIDES);
  const beside = lines.length ? ` (beside: ${lines.slice(0, MOST_BESIDE).join('; ')}${lines.length > MOST_BESIDE ? '; ..' : ''})` : '';
  return `turned: no visible difference${unsteady}${delayed}${beside}${notes}`;
}

/**
 * The verdict in a line. Called by replay-results.js and suite-replays.js.
 * @param {Result} result
 * @param {number} number of the race
 * @param {(number: number) => import('./sentence.js').Where} whereOf where the list has a race
 */
function verdictInWords(result, number = 0, whereOf = () => NOWHERE) {
  if (result.verdict === 'turned') return turnedInWords(result, (numbers) => racesInWords(numbers, whereOf(number), whereOf));
  const chance = chanceInWords(result.chance, false);
  return `could not be turned: ${result.why}${chance ? `; ${chance}` : ''}`;
}

/**
 * What OUT.replay.json contains of a race: the race as in the report (`race`, `lines`, `location`); `verdict` ('turned' or 'not turned'), `effect` (the worst
 * one), `words`, and `sentence`, the short form for the list; `kind`: whether it `differs`, only by `others`, is the `same` or was `not` reversed; `ownEffect`, the
 * worst effect that comes from no other race, and `from`, the other races from which differences come (each difference has its own); `isReader`: its handler only
 * read; `means`, what was held back, `why` it was not reversed, and notes (`note`).
 * The differences, each `{kind, subject, recorded, other}`: `differences` can be noticed, `beside` cannot; `unsteady` ones are there in one order too, `byDelay`
 * ones come from the delay.
 * `isListed`: the analyzer lists the two in the new trace; `isSteady`: the run with nothing reversed has the recorded order; `isSeenTwice`: in a second
 * run in the other order too.
 * `order`: how many actions the two need (`needed`), how many were queried (`asked`), and in words which are `missing`, came after them (`behind`), or are
 * `unordered`.
 * `group`: the numbers of the other races of its group by how they came (`turned`, `kept`, `gone`); `astray`: other races that came in another order; `chance`:
 * the runs in which this one came in which order by itself (`kept`, `turned`), or in the other one since another race was reversed (`implied`).
 * `comparedAt`: after what a page that never rests was compared; `trace`: the trace in the other order. Called by replay-results.js.
 * @param {Result} result
 * @param {Race} race
 * @param {number} number
 * @param {(number: number) => import('./sentence.js').Where} [whereOf] where the list has a race, by its number
 * @param {string} [event] of the race, as the list has it; '' if it has none
 */
function plain(result, race, number, whereOf = () => NOWHERE, event = '') {
  const { verdict, why, means, note, isListed, isSteady, isSeenTwice, astray, differences, beside, unsteady, byDelay, group, order, chance, comparedAt, trace } = result;
  const [worst, own] = [worstOf(result), worstOfOwn(result)];
  const from = [...new Set((differences || []).flatMap((one) => one.from || []))];
  return {
    race: number, lines: race.lines, location: race.location, verdict, kind: verdictOf(result), effect: worst?.name, ownEffect: own?.name, from: from.length ? from : undefined,
    isReader: result.isReader || undefined, words: verdictInWords(result, number, whereOf), sentence: sentenceOf(result, own?.difference, race.location, number, whereOf, event), why, means, note,
    isListed, isSteady, isSeenTwice, astray, differences, beside, unsteady, byDelay, group, order, chance, comparedAt, trace,
  };
}

module.exports = { verdictInWords, verdictOf, worstOf, worstOfOwn, orderOfResults, groupInWords, plain, SIDES, VERDICTS };
