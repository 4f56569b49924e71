'use strict';
// Problems drawn at random, to be judged by hand (judgements.json), and what the judgements come to.

const { createHash } = require('node:crypto');
const { LOOKS } = require('../../list/patterns/table.js');
const { isDone } = require('./lines.js');
const { tableOf, told } = require('./tables.js');

/**
 * @typedef {import('./types').DoneLine} DoneLine
 * @typedef {import('./types').Drawn} Drawn
 * @typedef {import('./types').Judged} Judged
 * @typedef {import('./types').Judgement} Judgement
 * @typedef {import('./types').Line} Line
 * @typedef {{page: string, name: string}} Named
 */

/**
 * What a drawn problem may be judged as.
 * @type {{[judgement: string]: string}}
 */
const JUDGEMENTS = {
  harmful: 'real and harmful',
  harmless: 'real and harmless',
  impossible: 'cannot happen in a browser',
};
const NOT_JUDGED = 'not yet judged';
const LONGEST_WHY = 400;

/**
 * @param {number} seed
 * @param {Named} problem
 */
const rankOf = (seed, { page, name }) => createHash('sha256').update(`${seed}\n${page}\n${name}`).digest('hex');
/**
 * @param {Named} one
 * @param {Named} other
 */
const isSame = (one, other) => one.page === other.page && one.name === other.name;

/**
 * The replay's verdict of a problem, where it was run again.
 * @param {DoneLine} line
 * @param {string} name
 */
function verdictOf({ replay }, name) {
  const found = replay.races.find((race) => race.name === name);
  return found ? [found.verdict, found.effect].filter(Boolean).join(': ') : '';
}

/**
 * Only another input of the user changes the order of two acts of a user: they fail no build, and are not drawn.
 * @param {{look: string}} problem
 */
const counts = ({ look }) => look !== LOOKS.acts.name;

/**
 * The problems of the first recordings that count, as they are to be judged.
 * @param {Line[]} lines
 * @returns {Drawn[]}
 */
function problemsOf(lines) {
  return lines.filter(isDone).flatMap((line) => line.problems.filter(counts).map(({ name, look, words, race, isAgain }) => ({
    page: line.page, name, look, words, race, isAgain, replay: verdictOf(line, name),
  })));
}

/**
 * So many of them: those with the least SHA-256 of the seed, the page and the name, in whichever order the lines are.
 * @param {Line[]} lines
 * @param {number} count
 * @param {number} seed
 * @returns {Drawn[]}
 */
function draw(lines, count, seed) {
  const all = problemsOf(lines).map((one) => ({ ...one, rank: rankOf(seed, one) }));
  return all.sort((a, b) => (a.rank < b.rank ? -1 : 1)).slice(0, count).map(({ rank, ...one }) => one);
}

/**
 * The file of judgements for a draw: what was judged before stays with its problem, and what is not drawn any more comes after.
 * @param {Drawn[]} drawn
 * @param {{count: number, seed: number}} facts
 * @param {{problems: Judged[], earlier?: Judged[]}} old
 */
function withJudgements(drawn, { count, seed }, old) {
  const known = [...old.problems, ...old.earlier || []].filter(({ judgement }) => judgement);
  const problems = drawn.map((one) => {
    const { judgement = '', lost = '', why = '' } = known.find((other) => isSame(one, other)) || /** @type {Partial<Judged>} */ ({});
    return { ...one, judgement, lost, why };
  });
  return { seed, count, problems, earlier: known.filter((one) => !problems.some((other) => isSame(one, other))) };
}

/**
 * What is wrong with judgements, as lines.
 * @param {{problems: Judgement[]}} judged
 * @param {string} document docs/lost.md, which has each lost order that is named
 */
function faultsOf({ problems }, document) {
  /** @type {string[]} */
  const faults = [];
  for (const { page, name, judgement, lost, why } of problems.filter((one) => one.judgement)) {
    const say = (/** @type {string} */ text) => faults.push(`${page}, ${name}: ${text}`);
    if (!JUDGEMENTS[judgement]) say(`no judgement: ${judgement}`);
    if (!why) say('why is not said');
    if (judgement === 'impossible' && !(lost && document.includes(lost))) say('it names no lost order of docs/lost.md');
  }
  return faults;
}

/**
 * A judgement as an item of a list: its sentences are too long for a table.
 * @param {Judgement} judgement
 */
function itemOf({ page, words, judgement, lost, why }) {
  const because = told([why, lost].filter(Boolean).join(': '), LONGEST_WHY);
  return `- ${told(page.split('/').slice(-2).join('/'))}: ${told(words)}. **${JUDGEMENTS[judgement]}**: ${because}`;
}

/**
 * @param {number} part
 * @param {number} all
 */
const percent = (part, all) => `${all ? Math.round((100 * part) / all) : 0} %`;

/**
 * The judgements in sum, and each with its sentence.
 * @param {{problems: Judgement[], seed: number|null}} file
 * @returns {{judgements: string, judged: string}}
 */
function judgementTexts({ problems, seed }) {
  const judged = problems.filter(({ judgement }) => judgement);
  const drawn = problems.length ? `${problems.length} problems are drawn by the seed ${seed}` : 'None is drawn yet';
  if (!judged.length) return { judgements: `${drawn}${problems.length ? '; none is judged yet' : ''}.`, judged: 'None.' };
  /** @type {[words: string, count: number][]} */
  const rows = Object.entries(JUDGEMENTS).map(([key, words]) => [words, judged.filter(({ judgement }) => judgement === key).length]);
  const rest = problems.length - judged.length;
  if (rest) rows.push([NOT_JUDGED, rest]);
  const sums = rows.map(([words, count]) => [words, count, percent(count, problems.length)]);
  return { judgements: tableOf(['Of the problems that were drawn', 'Problems', 'Share'], sums), judged: judged.map(itemOf).join('\n') };
}

module.exports = { draw, withJudgements, faultsOf, judgementTexts, JUDGEMENTS };
