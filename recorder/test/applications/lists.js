'use strict';
// What er_page wrote of a recording: its figures, and the lines of its list.

const fs = require('node:fs');
const path = require('node:path');

/**
 * @typedef {import('./types').Figures} Figures
 * @typedef {import('./types').Problem} Problem
 * @typedef {{name: string, look: string, part: string, words: string, summary: string, hasLine: boolean, races: {race: number}[],
 *   replay?: {verdict: string, effect?: string}}} Listed
 * @typedef {{figures: Figures, lines: Listed[], names: Set<string>}} List
 */

const COUNTS = /** @type {const} */ (['actions', 'accesses', 'races', 'groups']);
const MOST_WORDS = 1000;

/**
 * The sums of a report.
 * @param {string} text
 */
function countsOf(text) {
  const count = (/** @type {string} */ name) => Number(new RegExp(`^${name} (\\d+)$`, 'm').exec(text)?.[1] || 0);
  return /** @type {{[name in typeof COUNTS[number]]: number}} */ (Object.fromEntries(COUNTS.map((name) => [name, count(name)])));
}

/**
 * @param {{part: string}[]} lines
 */
function sectionsOf(lines) {
  /** @type {{[part: string]: number}} */
  const sections = {};
  for (const { part } of lines) sections[part] = (sections[part] || 0) + 1;
  return sections;
}

/**
 * The list of a recording; null where er_page wrote none.
 * @param {string} folder
 * @param {string} printed
 * @returns {List|null}
 */
function listOf(folder, printed) {
  const [races] = fs.readdirSync(folder).filter((one) => one.endsWith('.races'));
  const report = races && path.join(folder, races, 'page.report');
  if (!report || !fs.existsSync(report) || !printed.startsWith('{')) return null;
  /** @type {{problems: Listed[]}} */
  const { problems } = JSON.parse(printed);
  fs.writeFileSync(path.join(folder, 'list.json'), printed);
  const lines = problems.filter(({ hasLine }) => hasLine);
  const figures = { ...countsOf(fs.readFileSync(report, 'utf8')), lines: lines.length, sections: sectionsOf(lines) };
  return { figures, lines, names: new Set(problems.map(({ name }) => name)) };
}

/** @param {Listed} listed */
const verdictOf = ({ replay }) => (replay ? [replay.verdict, replay.effect].filter(Boolean).join(': ') : '');

/**
 * The lines of the first list, and which of them came again in the second.
 * @param {(List|null)[]} lists
 * @param {List|null} replayed
 * @returns {Problem[]}
 */
function problemsOf([one, other], replayed) {
  const verdicts = new Map((replayed?.lines || []).map((listed) => [listed.name, verdictOf(listed)]));
  return (one?.lines || []).map(({ name, look, part, words, summary, races }, k) => ({
    name, look, part, place: k + 1, race: races[0]?.race || 0, summary, words: words.slice(0, MOST_WORDS), isAgain: !!other?.names.has(name),
    ...verdicts.get(name) ? { replay: verdicts.get(name) } : {},
  }));
}

module.exports = { listOf, problemsOf, countsOf };
