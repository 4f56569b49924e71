#!/usr/bin/env node
'use strict';
// where.js WORD..: prints the modules of the recorder that fit these words best, each with its first sentence and its best line, and rows of the map
// (README.md). For developers. A whole question does too: words that say nothing are left out, names are split at capitals, and endings do not count.

const { print, printError } = require('./common/output.js');
const { partsOf } = require('./where-asked.js');
const { readIndex, withoutUsers } = require('./where-index.js');
const { countIn, rank } = require('./where-rank.js');
const { stemsIn } = require('./where-words.js');

/** A row comes before the modules if it has this share of the words, by their rarity, and names the best module. */
const FIRST_ROW = 0.8;
const LEAST_ROW = 0.4;
/** A row or a module is printed if it has this share of the best one's score. */
const LEAST = 0.45;
const MOST_ROWS = 2;
const LEAST_MODULES = 3;
const MOST_MODULES = 6;
const MOST_OF_PART = 2;
/** A definition with its comment is a better line than another one with as many of the words. */
const OF_DEFINITION = 1.25;
const SAYS_NOTHING = /\brequire\(|^import |@typedef|@type \{|@param/;
const MOST_HEADINGS = 3;
const MOST_LETTERS = 150;
const MOST_OF_COMMENT = 200;

/**
 * @typedef {import('./where-index.js').Index} Index
 * @typedef {import('./where-rank.js').FoundModule} FoundModule
 * @typedef {import('./where-rank.js').FoundRow} FoundRow
 * @typedef {import('./where-rank.js').Wanted} Wanted
 */

/** @param {string} text @param {number} most */
const cut = (text, most) => (text.length > most ? `${text.slice(0, most)}..` : text);
/** @param {FoundRow['row']} row */
const isRecipe = ({ question }) => question.startsWith('Recipe');
/** @param {FoundModule} found */
const isOfTests = ({ module: { name } }) => name.startsWith('test/');

/**
 * The words of a text, by their rarity: a name that is a word counts, and one that only contains it.
 * @param {string} text @param {Wanted[]} wanted
 */
function shareIn(text, wanted) {
  const counts = new Map(stemsIn(text).map((stem) => [stem, 1]));
  return wanted.reduce((sum, { forms, rarity }) => sum + rarity * countIn(counts, forms), 0);
}

/**
 * The sentences of a first comment.
 * @param {string} about
 */
const sentencesOf = (about) => about.split(/(?<=\.\)?)\s+(?=[A-Z`])/);

/**
 * A module with its first sentence, and below it what has most of the words: another sentence of its first comment, a definition, or a line of its code.
 * @param {FoundModule} found @param {Wanted[]} wanted
 */
function linesOfModule({ module: { name, parts: { about, lines, definitions, head } } }, wanted) {
  const [first, ...others] = sentencesOf(about);
  const told = [
    ...others.map((text) => ({ text, line: 0, weight: 1 })),
    ...definitions.filter(({ comment }) => comment).map(({ name: own, comment, line }) => ({ text: `${own}: ${withoutUsers(comment)}`, line, weight: OF_DEFINITION })),
    ...lines.slice(head).map((text, k) => ({ text: text.trim(), line: head + k + 1, weight: SAYS_NOTHING.test(text) ? 0 : 1 })),
  ].map(({ text, line, weight }) => ({ text, line, share: weight * shareIn(text, wanted) })).filter(({ share }) => share);
  const [best] = told.sort((one, other) => other.share - one.share);
  return [`recorder/${name}: ${cut(first, MOST_OF_COMMENT)}`, ...(best ? [`  ${best.line ? `${best.line}: ` : ''}${cut(best.text, MOST_LETTERS)}`] : [])];
}

/**
 * A row with the file in it that fits best.
 * @param {FoundRow} found @param {FoundModule[]} modules the best first
 */
function lineOfRow({ row: { question, answer, files } }, modules) {
  const best = files.length > 1 ? modules.find(({ module: { name } }) => files.includes(name)) : undefined;
  return `README.md: ${question} | ${best ? `best recorder/${best.module.name}, of ` : ''}${question.startsWith('Recipe') ? cut(answer, MOST_OF_COMMENT) : answer}`;
}

/**
 * Headings of documents with most of the words.
 * @param {Index} index @param {Wanted[]} wanted
 */
function linesOfHeadings({ headings }, wanted) {
  const all = wanted.reduce((sum, { rarity }) => sum + rarity, 0);
  const found = headings.map((heading) => ({ heading, share: shareIn(heading.text, wanted) / all })).filter(({ share }) => share >= FIRST_ROW).sort((one, other) => other.share - one.share);
  return found.length ? ['Documents:', ...found.slice(0, MOST_HEADINGS).map(({ heading: { file, line, text } }) => `${file}:${line}: ${text}`)] : [];
}

/**
 * What is printed for some words. Of a double question each part has further lines; the words of the other part count less in it.
 * @param {string[]} words
 * @param {Index} index
 * @returns {string[]}
 */
function linesFor(words, index) {
  const found = rank(words, index);
  const parts = found.same ? [] : partsOf(words.join(' '));
  if (parts.length < 2) return linesOf(found, index, MOST_MODULES);
  const printed = new Set(found.modules.slice(0, LEAST_MODULES).map(({ module }) => module));
  return [...linesOf(found, index, LEAST_MODULES), ...parts.flatMap((part) => {
    const { modules, wanted } = rank(part.split(' '), index, { context: words });
    const others = modules.slice(0, MOST_OF_PART).filter(({ module }) => !printed.has(module));
    others.forEach(({ module }) => printed.add(module));
    return others.length ? [`And "${part.replace(/\?$/, '')}":`, ...others.flatMap((one) => linesOfModule(one, wanted))] : [];
  })];
}

/**
 * What is printed for one question: rows with most of the words, modules, other rows, headings of documents.
 * @param {ReturnType<typeof rank>} found
 * @param {Index} index
 * @param {number} most
 */
function linesOf({ missing, rows, modules, wanted }, index, most) {
  const best = rows.filter(({ score, share }) => share >= LEAST_ROW && score >= LEAST * rows[0].score).slice(0, MOST_ROWS);
  const isFirst = (/** @type {FoundRow} */ { row, share }) => share >= FIRST_ROW && (!modules.length || isOfTests(modules[0]) || isRecipe(row) || row.files.includes(modules[0].module.name));
  const near = modules.filter(({ score }, k) => k < LEAST_MODULES || score >= LEAST * modules[0].score);
  const told = (/** @type {FoundRow[]} */ some) => some.map((row) => lineOfRow(row, modules));
  const lines = missing.length ? [`no file has: ${missing.join(', ')}`] : [];
  lines.push(...told(best.filter(isFirst)), ...near.slice(0, most).flatMap((found) => linesOfModule(found, wanted)));
  const left = near.length - most;
  if (left > 0) lines.push(`and ${left} more module${left > 1 ? 's' : ''}: a further word leaves fewer`);
  const others = best.filter((row) => !isFirst(row));
  if (others.length) lines.push('Other rows of the map:', ...told(others));
  if (!best.some(({ share }) => share >= FIRST_ROW)) lines.push(...linesOfHeadings(index, wanted));
  return lines;
}

const USAGE = 'usage: recorder/where.js WORD..';
const HELP = `${USAGE}

Prints where a thing is decided in the recorder: the rows of the map (recorder/README.md) and the
modules that fit the words best. WORD.. is a question, a few words of it, or a name of the code.

  recorder/where.js Where is a redirect refused?
  recorder/where.js early click
  recorder/where.js startTask`;

/**
 * The command.
 * @param {string[]} words
 */
function main(words) {
  if (words.length === 1 && /^(?:-h|--help)$/.test(words[0])) {
    print(HELP);
    return;
  }
  if (!words.length) {
    printError(`${USAGE}\nRun recorder/where.js --help for examples`);
    process.exitCode = 2;
    return;
  }
  for (const line of linesFor(words, readIndex())) print(line);
}

if (require.main === module) main(process.argv.slice(2));

module.exports = { linesFor };
