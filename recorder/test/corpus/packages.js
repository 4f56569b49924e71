'use strict';
// Debian's packages as apt knows them: what there are, fetched, and unpacked into a folder. Nothing is installed, and it takes no rights of root.

const fs = require('node:fs');
const path = require('node:path');
const { run } = require('../cleanup.js');

const LONGEST_CALL = 900000;
const FIELD = /^([A-Z][\w-]*): (.*)$/;

/** The field of debtags, which may go on in further lines. */
const TAGS = /^Tag:(.*(?:\n .*)*)/m;

/**
 * @typedef {{name: string, version: string, size: number, section: string, architecture: string, description: string, relations: string, depends: string,
 *   tags: string[]}} Package
 */

/**
 * One paragraph of apt's list; null where it is none of a package.
 * @param {string} paragraph
 * @returns {Package|null}
 */
function parsePackage(paragraph) {
  /** @type {{[name: string]: string}} */
  const fields = {};
  for (const line of paragraph.split('\n')) {
    const found = FIELD.exec(line);
    if (found) [, , fields[found[1]]] = found;
  }
  if (!fields.Package) return null;
  const { Package: name, Version: version = '', Section: section = '', Architecture: architecture = '', Description: description = '', Depends: depends = '' } = fields;
  const relations = [depends, fields.Recommends, fields.Suggests].filter(Boolean).join(', ');
  const tags = (TAGS.exec(paragraph)?.[1] || '').split(',').map((tag) => tag.trim()).filter(Boolean);
  return {
    name, version, size: Number(fields.Size) || 0, section, architecture, description, relations, tags,
    depends: [depends, fields.Recommends].filter(Boolean).join(', '),
  };
}

/**
 * All packages of a text as `apt-cache dumpavail` writes it, by name; of several versions the first.
 * @param {string} text
 */
function parsePackages(text) {
  /** @type {Map<string, Package>} */
  const packages = new Map();
  for (const paragraph of text.split('\n\n')) {
    const one = parsePackage(paragraph);
    if (one && !packages.has(one.name)) packages.set(one.name, one);
  }
  return packages;
}

/**
 * @param {string} program
 * @param {string[]} words
 * @param {import('node:child_process').SpawnOptions} options
 */
async function call(program, words, options = {}) {
  const ended = await run(program, words, { longest: LONGEST_CALL, ...options });
  if (ended.status !== 0) throw new Error(`${program} ${words.slice(0, 8).join(' ')}: status ${ended.status}: ${ended.stderr.trim().split('\n').pop()}`);
  return ended.stdout;
}

/** @returns {Promise<Map<string, Package>>} */
async function availablePackages() {
  return parsePackages(await call('apt-cache', ['dumpavail']));
}

/**
 * @param {string|undefined} relation
 * @param {RegExp} expression
 */
const namesIn = (relation = '', expression) => relation.split(/[,|]/).map((one) => one.trim().split(/[\s:(]/)[0]).filter((name) => expression.test(name));

/**
 * The packages of scripts that a package needs, and those that these need.
 * @param {string} name
 * @param {Map<string, Package>} packages
 */
function needsOf(name, packages) {
  /** @type {Set<string>} */
  const all = new Set();
  const left = namesIn(packages.get(name)?.depends, /^libjs-/);
  for (let one = left.shift(); one !== undefined; one = left.shift()) {
    if (all.has(one) || one === name || !packages.has(one)) continue;
    all.add(one);
    left.push(...namesIn(packages.get(one)?.depends, /^(libjs|node)-/));
  }
  return [...all].sort();
}

/**
 * @param {string} file
 * @param {string} name
 */
const isOf = (file, name) => file.startsWith(`${name}_`) && file.endsWith('.deb');

/** A folder of fetched packages, and the folder `root` beside them, into which they are unpacked. Pages find scripts in `/javascript`, as on Debian's servers. */
class Unpacked {
  /** @param {string} folder */
  constructor(folder) {
    this.fetched = path.join(folder, 'packages');
    this.root = path.join(folder, 'root');
    [this.fetched, this.root].forEach((one) => fs.mkdirSync(one, { recursive: true }));
    const common = path.join(this.root, 'javascript');
    if (!fs.lstatSync(common, { throwIfNoEntry: false })) fs.symlinkSync('usr/share/javascript', common);
  }

  /** @param {string} name */
  fileOf(name) {
    const file = fs.readdirSync(this.fetched).find((one) => isOf(one, name));
    return file ? path.join(this.fetched, file) : null;
  }

  /**
   * The file of a package that was fetched.
   * @param {string} name
   */
  fetchedFileOf(name) {
    const file = this.fileOf(name);
    if (!file) throw new Error(`${name} was not fetched into ${this.fetched}`);
    return file;
  }

  /**
   * Whether it was fetched and unpacked to its end.
   * @param {string} name
   */
  has(name) {
    return !!this.fileOf(name) && fs.existsSync(this.markOf(name));
  }

  /** @param {string} name */
  markOf(name) {
    return path.join(this.fetched, `${name}.unpacked`);
  }

  /**
   * Fetches and unpacks what is missing of some packages.
   * @param {string[]} names
   */
  async add(names) {
    const missing = names.filter((name) => !this.fileOf(name));
    if (missing.length) await call('apt-get', ['download', '-q', ...missing], { cwd: this.fetched });
    for (const name of names.filter((one) => !this.has(one))) await this.unpack(name);
  }

  /**
   * A file that can't be unpacked, as one that a signal cut off, is fetched again by the next call.
   * @param {string} name
   */
  async unpack(name) {
    const file = this.fetchedFileOf(name);
    try {
      await call('dpkg-deb', ['-x', file, this.root]);
    } catch (fault) {
      fs.rmSync(file);
      throw fault;
    }
    fs.writeFileSync(this.markOf(name), '');
  }

  /**
   * The version that was unpacked.
   * @param {string} name
   */
  async versionOf(name) {
    return (await call('dpkg-deb', ['-f', this.fetchedFileOf(name), 'Version'])).trim();
  }

  /**
   * The files of a package, by their way from the root.
   * @param {string} name
   */
  async filesOf(name) {
    const lines = (await call('dpkg-deb', ['-c', this.fetchedFileOf(name)])).split('\n');
    return lines.filter((line) => line.startsWith('-')).map((line) => line.replace(/^(?:\S+\s+){5}\./, ''));
  }
}

module.exports = { availablePackages, parsePackages, needsOf, Unpacked };
