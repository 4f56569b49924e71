'use strict';
// What where.js searches: the modules of the recorder with their comments and definitions, the rows and recipes of the map (README.md), headings of docs/.

const fs = require('node:fs');
const path = require('node:path');

/** What a module defines: a function, a class, a constant, a method. */
const DEFINITION = /^(?:async function|function|class|const| {2}(?:static |async |\*|#)*(?!if|for|while|switch|return|super)(?=[\w$#]+\([^)]*\) \{$))\s*([\w$#]+)(?:\(([^)]*)\))?/;
/** What is code or comment of a module. The rest (data, pages) is not searched. */
const IS_MODULE = /(?:\.js|\.d\.ts|\.css|^launch|^start|^install|^run-tests)$/;
const LEFT_OUT = new Set(['pages', 'out', 'node_modules', 'corpus', 'applications', 'profile']);
/** Who uses a module or a definition, at the end of its comment: shown, but not searched. */
const USERS = /\b(?:Made|Called|Used|Extended) by (?:(?:, | and )?[\w./-]+\.js)+(?:, as its `\w+`)?\./g;
/** A file or a folder in a row. */
const FILE = /`([\w./-]+(?:\.(?:js|ts|css)|\/|\/launch))`/g;

/**
 * A definition: `line` is its line, `from` the first of its comment, both from 1; `comment` is '' if it has none.
 * @typedef {{name: string, line: number, from: number, parameters: string, comment: string}} Definition
 */
/**
 * A row or a recipe of the map, with whole paths in its answer. `parts` has what its answer says about each file.
 * @typedef {{question: string, answer: string, files: string[], parts: {file: string, text: string}[]}} Row
 */
/** @typedef {{file: string, line: number, text: string}} Heading */
/** @typedef {{modules: Module[], rows: Row[], headings: Heading[], asked: import('./where-asked.js').Asked[]}} Index */

/** @param {string} comment */
const withoutUsers = (comment) => comment.replace(USERS, '');

/**
 * The first comment of a module, and its definitions with the comments before them.
 * @param {string} text
 */
function partsOf(text) {
  const lines = text.split('\n');
  const sign = /^(?:\/\/|#|\/\*) /;
  const head = lines.findIndex((line) => sign.test(line));
  const rest = lines.slice(head).findIndex((line) => !sign.test(line));
  const about = head < 0 ? '' : lines.slice(head, head + rest).map((line) => line.replace(sign, '')).join(' ');
  const isComment = lines.map((line) => /^\s*(?:\/?\*|\/\/|# )/.test(line));
  /** @type {Definition[]} */
  const definitions = [];
  let from = 0;
  lines.forEach((line, k) => {
    const [, name, parameters = ''] = isComment[k] ? [] : DEFINITION.exec(line) || [];
    if (name) {
      const comment = lines.slice(from, k).map((one) => one.replace(/^[\s/*]+|\*\/$/g, '')).join(' ').replace(/@\w+.*/, '').trim();
      definitions.push({ name, line: k + 1, from: from + 1, parameters, comment });
    }
    if (!isComment[k]) from = k + 1;
  });
  const told = lines.filter((line, k) => isComment[k] && k >= head + rest).map((line) => line.replace(/^[\s/*]+/, '')).join(' ');
  return { about, definitions, isComment, lines, told: withoutUsers(told), head: head + rest };
}

/** A module: most have no word of a query, so their lines are read late. */
class Module {
  /** @type {ReturnType<typeof partsOf>|undefined} */
  #parts;

  /** @param {string} name its path in recorder/ @param {string} text */
  constructor(name, text) {
    this.name = name;
    this.text = text;
    this.lower = text.toLowerCase();
  }

  /** `about` is its first comment, which ends before line `head` (from 0); `isComment` has whether each of its `lines` is one, `told` the others in one text. */
  get parts() {
    return this.#parts ??= partsOf(this.text);
  }
}

/**
 * The modules below a folder. Unit tests are left out, but not those of test/.
 * @param {string} folder
 * @returns {Module[]}
 */
function modulesIn(folder) {
  return fs.readdirSync(folder, { withFileTypes: true }).flatMap((entry) => {
    const file = path.join(folder, entry.name);
    if (entry.isDirectory()) return LEFT_OUT.has(entry.name) ? [] : modulesIn(file);
    const name = path.relative(__dirname, file);
    if (!IS_MODULE.test(entry.name) || (entry.name.endsWith('.test.js') && !name.startsWith('test/'))) return [];
    return [new Module(name, fs.readFileSync(file, 'utf8'))];
  });
}

/**
 * A row with the whole path of each file and folder. A name without a folder is in the folder before it in its cell, `./` is recorder/. In a row of a folder,
 * names are those of this folder.
 * @param {string} row
 */
function withPaths(row) {
  const [, own = ''] = /^\| `([\w/]+\/)` \|/.exec(row) || [];
  let folder = own;
  const told = row.slice(own ? row.indexOf(' | ') : 0).replace(FILE, (all, name) => {
    const whole = [folder + name, own + name, name].map((one) => path.posix.normalize(one)).find((one) => fs.existsSync(path.join(__dirname, one)));
    if (!whole) return all;
    if (!own) folder = whole.replace(/[^/]*$/, '');
    return `\`recorder/${whole}\``;
  });
  return own ? `| ${own}${told}` : told;
}

/**
 * @param {string} question
 * @param {string} answer
 * @returns {Row}
 */
const rowOf = (question, answer) => ({
  question: question.replace(/`/g, ''), answer: answer.replace(/`/g, ''), files: [...answer.matchAll(/`recorder\/([\w./-]+)`/g)].map(([, file]) => file),
  parts: answer.split(/; |(?<=\)), (?=`)/).flatMap((text) => [...text.matchAll(/`recorder\/([\w./-]+)`/g)].map(([, file]) => ({ file, text: text.replace(/`recorder\/[^`]*`/g, '') }))),
});

/**
 * The rows of the tables of README.md, and its recipes.
 * @param {string} text
 */
function rowsIn(text) {
  const rows = text.split('\n').filter((line, k, all) => /^\| [^*]/.test(line) && !/^\|-/.test(all[k + 1])).map((line) => {
    const [question, ...cells] = withPaths(line).slice(2, -2).split(' | ');
    return rowOf(question, cells.join(' | '));
  });
  const recipes = [...text.matchAll(/^\*\*(A new [^*]*?):?\*\*(.*(?:\n.+)*)/gm)].map(([, title, steps]) => rowOf(`Recipe: ${title}`, withPaths(steps.replace(/\n/g, ' '))));
  return [...rows, ...recipes];
}

/**
 * The headings of the documents.
 * @returns {Heading[]}
 */
function headings() {
  const folder = path.join(__dirname, '..', 'docs');
  if (!fs.existsSync(folder)) return [];
  const files = fs.readdirSync(folder).filter((name) => name.endsWith('.md')).map((name) => ({ file: `docs/${name}`, lines: fs.readFileSync(path.join(folder, name), 'utf8').split('\n') }));
  return files.flatMap(({ file, lines }) => lines.flatMap((text, k) => (/^#+ /.test(text) ? [{ file, line: k + 1, text: text.replace(/^#+ /, '') }] : [])));
}

/**
 * The questions that were asked before.
 * @returns {import('./where-asked.js').Asked[]}
 */
const questions = () => JSON.parse(fs.readFileSync(path.join(__dirname, 'where-questions.json'), 'utf8'));

/** @returns {Index} */
const readIndex = () => ({ modules: modulesIn(__dirname), rows: rowsIn(fs.readFileSync(path.join(__dirname, 'README.md'), 'utf8')), headings: headings(), asked: questions() });

module.exports = { readIndex, withPaths, withoutUsers, USERS };
