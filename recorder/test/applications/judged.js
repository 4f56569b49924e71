'use strict';
// Problems drawn at random from the lists, to be judged by hand (judgements.json), and what the judgements come to.

const { createHash } = require('node:crypto');
const { APART } = require('../../list/patterns/table.js');
const { tableOf, told } = require('../corpus/tables.js');

/**
 * @typedef {import('./types').DoneLine} DoneLine
 * @typedef {import('./types').Judged} Judged
 * @typedef {import('./types').Judgements} Judgements
 * @typedef {import('./types').Problem} Problem
 */

/** What a drawn problem can be judged as. */
const WORDS = { harmful: 'real and harmful', harmless: 'real and harmless', impossible: 'cannot happen in a browser' };
const FIRST_PLACES = 3;
const LONGEST_WHY = 500;

/**
 * @param {number} seed
 * @param {{application: string, name: string}} one
 */
const rankOf = (seed, { application, name }) => createHash('sha256').update(`${seed}\n${application}\n${name}`).digest('hex');

/**
 * So many lines of the first lists: those with the least SHA-256 of the seed, the application and the name. Two acts of a user against each other are not
 * drawn: they fail no build. What was judged before stays.
 * @param {DoneLine[]} lines
 * @param {Judgements} judgements
 * @returns {Judgements}
 */
function draw(lines, { seed, count, problems: old }) {
  const all = lines.flatMap(({ application, problems }) => problems.filter(({ part }) => part !== APART).map((one) => ({ application, ...one })));
  const drawn = all.sort((a, b) => (rankOf(seed, a) < rankOf(seed, b) ? -1 : 1)).slice(0, count);
  const problems = drawn.map(({ application, name, look, part, place, summary, words }) => {
    const known = old.find((one) => one.application === application && one.name === name);
    const { judgement = '', lost = '', why = '' } = known || /** @type {Partial<Judged>} */ ({});
    return { application, name, look, part, place, summary, words, judgement, lost, why };
  });
  return { seed, count, problems };
}

/**
 * What is wrong with judgements, as lines.
 * @param {Judgements} judgements
 */
function faultsOf({ problems }) {
  return problems.filter(({ judgement }) => judgement).flatMap(({ application, name, judgement, lost, why }) => [
    ...WORDS[/** @type {'harmful'} */ (judgement)] ? [] : [`${application}, ${name}: no judgement: ${judgement}`],
    ...why ? [] : [`${application}, ${name}: why is not said`],
    ...judgement === 'impossible' && !lost ? [`${application}, ${name}: which order is lost is not said`] : [],
  ]);
}

/**
 * @param {number} part
 * @param {number} all
 */
const share = (part, all) => `${part} of ${all} (${all ? Math.round((100 * part) / all) : 0} %)`;

/** @param {Judged[]} judged */
function rowsOf(judged) {
  const first = judged.filter(({ place }) => place <= FIRST_PLACES);
  const harmful = judged.filter(({ judgement }) => judgement === 'harmful');
  /** @type {[words: string, value: string][]} */
  const rows = Object.entries(WORDS).map(([key, words]) => [words, share(judged.filter(({ judgement }) => judgement === key).length, judged.length)]);
  rows.push(['harmful, of those in the first three places of a list', share(first.filter(({ judgement }) => judgement === 'harmful').length, first.length)]);
  rows.push(['in the first three places, of the harmful', share(harmful.filter(({ place }) => place <= FIRST_PLACES).length, harmful.length)]);
  return rows;
}

/** @param {Judged} one */
function itemOf({ application, look, place, summary, judgement, lost, why }) {
  const because = told([why, lost].filter(Boolean).join(' Lost order: '), LONGEST_WHY);
  return `- ${application}, place ${place}, \`${look}\`: ${told(summary)}. **${WORDS[/** @type {'harmful'} */ (judgement)]}**: ${because}`;
}

/**
 * The judgements in sum, by section, and each with its sentence.
 * @param {Judgements} judgements
 */
function judgementText({ seed, problems }) {
  const judged = problems.filter(({ judgement }) => judgement);
  if (!judged.length) return 'None is judged yet.';
  const parts = [...new Set(judged.map(({ part }) => part))];
  const bySection = parts.map((part) => [part, ...Object.keys(WORDS).map((key) => judged.filter((one) => one.part === part && one.judgement === key).length)]);
  return [
    `${problems.length} problems were drawn by the seed ${seed} from lists of the time of the draw, except lines of two acts of a user; ${judged.length} are judged.`,
    tableOf(['Of the judged problems', 'Share'], rowsOf(judged)),
    tableOf(['Section', 'Harmful', 'Harmless', 'Cannot happen'], bySection),
    judged.map(itemOf).join('\n'),
  ].join('\n\n');
}

module.exports = { draw, faultsOf, judgementText, WORDS };
