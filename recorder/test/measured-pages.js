'use strict';
// The pages that orders.js, timeline.js and profile.js are given, and the tables that they write: names of pages.json, files of pages/, or addresses.

const { execFileSync } = require('node:child_process');
const fs = require('node:fs');
const path = require('node:path');

const TOP = path.join(__dirname, '..', '..');
const PAGES = path.join(__dirname, 'pages');

/**
 * @typedef {{name: string, page: string, words: string[], file?: string}} MeasuredPage `file` begins the names of its files, in place of its name
 * @typedef {{times: number, seed: number, into: string|null, pages: MeasuredPage[]}} Measured
 */

/** @returns {{package: string, page: string, words: string[], root?: string}[]} */
const packaged = () => JSON.parse(fs.readFileSync(path.join(__dirname, 'packaged.json'), 'utf8'));

/**
 * @param {string} given a package of packaged.json, a file of pages/, a file or an address
 * @returns {MeasuredPage}
 */
function pageOf(given) {
  const known = packaged().find((one) => one.package === given);
  if (known) return { name: given, page: known.page, words: [...known.words, '--root', known.root || '/usr/share'] };
  const own = path.join(PAGES, given);
  if (fs.existsSync(own)) return { name: given, page: own, words: [] };
  const file = path.resolve(given);
  return { name: path.relative(TOP, file), page: /^https?:/.test(given) ? given : file, words: [] };
}

/** @param {MeasuredPage} page */
const isThere = ({ page }) => /^https?:/.test(page) || fs.existsSync(page.replace(/\?.*$/, ''));

/**
 * Takes `[--times N] [--seed N] [--into FILE]` out of the words of a call.
 * @param {string[]} left
 */
function takeOptions(left) {
  const take = (/** @type {string} */ name) => (left.includes(name) ? left.splice(left.indexOf(name), 2)[1] : null);
  return { times: Number(take('--times') || 8), seed: Number(take('--seed') || 1), into: take('--into') };
}

/**
 * The pages that are there; `packaged` stands for all packages of packaged.json.
 * @param {string[]} words
 */
function pagesOf(words) {
  const all = words.flatMap((word) => (word === 'packaged' ? packaged().map((one) => one.package) : [word])).map(pageOf);
  for (const one of all.filter((page) => !isThere(page))) console.log(`${one.name}: not installed`);
  return all.filter(isThere);
}

/**
 * `[--times N] [--seed N] [--into FILE] PAGE..`
 * @param {string[]} words
 * @returns {Measured}
 */
function measuredOf(words) {
  const left = [...words];
  return { ...takeOptions(left), pages: pagesOf(left) };
}

const row = (/** @type {(string|number)[]} */ cells) => `| ${cells.join(' | ')} |`;

/**
 * @param {string[]} head
 * @param {(string|number)[][]} rows
 */
const tableOf = (head, rows) => [row(head), `|${'---|'.repeat(head.length)}`, ...rows.map(row)].join('\n');

const commitOf = () => execFileSync('git', ['-C', TOP, 'rev-parse', '--short=8', 'HEAD'], { encoding: 'utf8' }).trim();

/** The commit and the date, as the first line of a file of docs/measured/ has them. */
const commitAndDate = () => `Commit ${commitOf()}, ${new Date().toISOString().slice(0, 10)}`;

/**
 * Puts a section into a file: in place of its own with this heading, or at the end. The file's first line is its title.
 * @param {string} file
 * @param {string} heading
 * @param {string} text
 * @param {string} [title] of the file
 */
function writeSection(file, heading, text, title = 'Orders in a real browser') {
  const old = fs.existsSync(file) ? fs.readFileSync(file, 'utf8') : '';
  const sections = old.split(/^(?=## )/m).filter((one) => one.startsWith('## ') && !one.startsWith(`## ${heading}\n`));
  const own = `## ${heading}\n\n${commitAndDate()}. ${text}\n\n`;
  const all = [own, ...sections.map((one) => `${one.trimEnd()}\n\n`)].sort().join('').trimEnd();
  fs.writeFileSync(file, `# ${title} (${commitAndDate()})\n\n${all}\n`);
}

module.exports = { measuredOf, takeOptions, pagesOf, pageOf, commitOf, tableOf, writeSection };
