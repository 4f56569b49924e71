'use strict';
// The file of known problems (races.known, --known) and its format: in each line a name and its words. It is a baseline: what it lists is not new. A malformed
// line is a KnownFault; names that no problem has any more (they did not occur) are `notSeen` (stale). Lines that begin with # are comments and keep their
// position.

const fs = require('node:fs');

const LINE = /^([0-9a-f]{12}(?:\.[0-9a-f]{6})?)(?: +(.*))?$/;
const HEAD = ['# Known races (./er_page --known, docs/ci.md): in each line a name and its words. Without its line, a race is reported as new.'];
/** The first line of files of version 1.2 and before. */
const OLD_HEAD = '# Races that are known (./er_page --known, docs/viewing.md): a name a line, its words behind it. Take a line away to be told again.';

/**
 * @typedef {{name: string, seen: Map<string, unknown>}} Named  `seen` has the names of its races
 * @typedef {{name: string, words: string, comments: string[]}} Entry
 */

/** Why a file of known problems cannot be used: its status is in command.js. */
class KnownFault extends Error {}

/** Made by each command that prints a list (`Known.of`). */
class Known {
  /** @param {string} text the content of the file; throws a KnownFault that names the first bad line @param {string} file */
  constructor(text, file) {
    this.file = file;
    /** @type {Map<string, {words: string, comments: string[]}>} by name, in the order of the file; `comments` are the lines above */
    this.entries = new Map();
    /** @type {string[]} the comments after the last entry */
    this.rest = [];
    text.split(/\r?\n/).forEach((line, k) => this.read(line, k + 1));
    if (this.rest[this.rest.length - 1] === '') this.rest.pop();
  }

  /**
   * The file that a command's options name, if they name one.
   * @param {{known: string|null, writesKnown: boolean}} options
   */
  static of({ known, writesKnown }) {
    return known ? Known.readFile(known, writesKnown) : null;
  }

  /**
   * Reads a file of known races. Fails with a KnownFault.
   * @param {string} file @param {boolean} mayLack whether the file may still have to be written
   */
  static readFile(file, mayLack) {
    let text;
    try {
      text = fs.readFileSync(file, 'utf8');
    } catch (error) {
      const { code, message } = /** @type {NodeJS.ErrnoException} */ (error);
      if (code === 'ENOENT' && mayLack) return new Known(HEAD.join('\n'), file);
      throw new KnownFault(`${file}: ${code === 'ENOENT' ? 'there is no such file; --write-known creates it' : message}`);
    }
    return new Known(text, file);
  }

  /**
   * Takes a line of the file.
   * @param {string} line @param {number} number
   */
  read(line, number) {
    if (!line.trim() || line.startsWith('#')) {
      this.rest.push(line);
      return;
    }
    const found = LINE.exec(line);
    if (!found) throw new KnownFault(`${this.file}, line ${number}: no name of a race, 12 hexadecimal digits: ${line.slice(0, 60)}`);
    if (this.entries.has(found[1])) throw new KnownFault(`${this.file}, line ${number}: the name ${found[1]} is in an earlier line too: remove one of the lines`);
    this.entries.set(found[1], { words: found[2] || '', comments: this.rest });
    this.rest = [];
  }

  /**
   * Whether a problem is known, by its own name or by those of all its races. Called by listing.js.
   * @param {Named} problem
   */
  hasProblem({ name, seen }) {
    return this.entries.size > 0 && (this.entries.has(name) || [...seen.keys()].every((one) => this.entries.has(one)));
  }

  /**
   * The lines whose problem or race did not come. Called by listing.js.
   * @param {Named[]} problems
   */
  notSeen(problems) {
    const seen = new Set(problems.flatMap(({ name, seen: races }) => [name, ...races.keys()]));
    return [...this.entries].filter(([name]) => !seen.has(name)).map(([name, { words }]) => ({ name, words }));
  }

  /**
   * The text of the file with some more problems. Its lines stay as they are, and each new line is added where it belongs by its words. Called by outputs.js.
   * @param {(Named & {words: string})[]} problems
   */
  textWith(problems) {
    /** @type {Entry[]} */
    const lines = [...this.entries].map(([name, { words, comments }]) => ({ name, words, comments }));
    const [first] = lines;
    const head = first ? takeHead(first) : this.rest;
    for (const one of problems.filter((problem) => !this.hasProblem(problem))) lines.push({ name: one.name, words: oneLine(one.words), comments: [] });
    lines.sort((a, b) => compareTexts(a.words, b.words) || compareTexts(a.name, b.name));
    const body = lines.flatMap(({ name, words, comments }) => [...comments, `${name} ${words}`.trim()]);
    return [...head, ...body, ...(first ? this.rest : []), ''].join('\n');
  }
}

/**
 * Takes the comments at the start of the file, up to a blank line or the whole block, off the first entry: they belong to the file.
 * @param {Entry} entry
 */
function takeHead(entry) {
  const blank = entry.comments.lastIndexOf('');
  const isOwn = blank < 0 && entry.comments[0] !== HEAD[0] && entry.comments[0] !== OLD_HEAD;
  const count = isOwn ? 0 : blank < 0 ? 1 : blank + 1;
  return entry.comments.splice(0, count);
}

/** @param {string} words */
const oneLine = (words) => words.replace(/\s+/g, ' ');
/** @param {string} a @param {string} b */
const compareTexts = (a, b) => (a < b ? -1 : a > b ? 1 : 0);

module.exports = { Known, KnownFault };
