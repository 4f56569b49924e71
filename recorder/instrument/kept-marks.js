'use strict';
// Keeps the marks of scripts by their texts, in memory and in a folder (common/cache-folder.js): a script that was marked before is not read again. The
// result is the same as that of `instrument`, with the numbers of this run: what a mark says of its place is kept apart from it. A cache of instrumented code
// over runs and recordings.

const { createHash } = require('node:crypto');
const fs = require('node:fs');
const path = require('node:path');
const { CacheFolder } = require('../common/cache-folder.js');
const { instrument } = require('./instrument.js');

/**
 * @typedef {import('./syntax/types').Options} Options
 * @typedef {import('./syntax/types').Edit} Edit
 * @typedef {import('./syntax/types').About} About
 * @typedef {ReturnType<typeof instrument>} Result
 */

/**
 * What `instrument` made of a text, with `\uE000NUMBER\uE001` in place of each site and `\uE003NUMBER\uE001` in place of each module: the sites as they were
 * asked for, the names of modules that were looked up and whether each has a number, the names of the browser that were taken, and what was reported of
 * functions and libraries; or why the text has no marks.
 * @typedef {object} Kept
 * @property {Result['fault']} [fault]
 * @property {number[]} starts
 * @property {[index: number, end: number][]} ends of the edits that replace something
 * @property {string} inserts
 * @property {[offset: number, about?: About][]} sites
 * @property {[name: string, hasNumber: boolean][]} modules
 * @property {string[]} taken
 * @property {[start: number, end: number, name: string][]} named
 * @property {[start: number, end: number, name: string][]} libraries
 */

/** Shorter texts are marked faster than they are looked up. */
const SHORTEST = 2000;
/** The texts in memory have at most so many characters of marks. */
const MOST_IN_MEMORY = 32 << 20;
/** Written when nothing was marked for so many milliseconds, or when the process ends. */
const QUIET = 2000;
const SITE = /"?\uE000(\d+)\uE001"?/g;
/** In a quoted list it is escaped (marks/quote.js). */
const MODULE = /"?(?:\uE003|\\ue003)(\d+)(?:\uE001|\\ue001)"?/g;
const BETWEEN = '\uE002';
const OWN_SIGNS = /[\uE000-\uE003]|\\ue003/;

/**
 * The files of a folder and its folders.
 * @param {string} folder
 * @returns {string[]}
 */
function filesIn(folder) {
  const all = fs.readdirSync(folder, { withFileTypes: true });
  return all.flatMap((one) => (one.isDirectory() ? filesIn(path.join(folder, one.name)) : [path.join(folder, one.name)]));
}

/** @type {string} */
let version = '';

/** What makes the marks: a change of it makes other keys. */
function versionOfMarks() {
  if (version) return version;
  const hash = createHash('sha256');
  const parser = require.resolve('/usr/share/nodejs/acorn');
  const own = [__dirname, path.join(__dirname, '..', 'common')].flatMap(filesIn).filter((name) => name.endsWith('.js') && !name.endsWith('.test.js')).sort();
  for (const file of [...own, parser]) hash.update(`${path.basename(file)}\0`).update(fs.readFileSync(file)).update('\0');
  version = hash.digest('hex');
  return version;
}

/**
 * The key of the marks of a text: all that they depend on, also the texts of the modules of instrument/.
 * @param {string} code
 * @param {Options} options
 */
function keyOf(code, { kind, type, depth, keepsAll, builtins, module, named, library }) {
  const hash = createHash('sha256').update(versionOfMarks());
  return hash.update(JSON.stringify([kind, type, depth, !!keepsAll, builtins.signature?.(), module, !!named, !!library])).update(code).digest('hex');
}

/**
 * Marks a text, and notes all that it is to be made of again.
 * @param {string} code
 * @param {Options} options
 * @returns {Kept}
 */
function markAndNote(code, options) {
  /** @type {Omit<Kept, 'starts'|'ends'|'inserts'>} */
  const noted = { sites: [], modules: [], taken: [], named: [], libraries: [] };
  const { numberOfModule, named, library, builtins } = options;
  const { edits = [], fault } = instrument(code, {
    ...options,
    site: (offset, about) => /** @type {any} */ (`\uE000${noted.sites.push(about ? [offset, about] : [offset]) - 1}\uE001`), // marks are texts
    numberOfModule: numberOfModule && ((name) => {
      const hasNumber = numberOfModule(name) !== undefined;
      const index = noted.modules.push([name, hasNumber]) - 1;
      return hasNumber ? /** @type {any} */ (`\uE003${index}\uE001`) : undefined; // marks are texts
    }),
    named: named && ((start, end, name) => { noted.named.push([start, end, name]); }),
    library: library && ((start, end, name) => { noted.libraries.push([start, end, name]); }),
    builtins: {
      has: (name) => builtins.has(name),
      take: builtins.take && ((program) => {
        const taken = builtins.take?.(program) || [];
        noted.taken = taken.map(({ name }) => name);
        return taken;
      }),
    },
  });
  const ends = edits.flatMap(({ start, end }, k) => (end === start ? [] : [/** @type {[number, number]} */ ([k, end])]));
  return { ...noted, fault, starts: edits.map(({ start }) => start), ends, inserts: edits.map(({ insert }) => insert).join(BETWEEN) };
}

/**
 * What `instrument` answers, of what was kept, with sites and modules of this run; null if other names of modules have a number in it.
 * @param {Kept} kept
 * @param {Options} options
 * @returns {Result|null}
 */
function resultOf({ fault, starts, ends, inserts, sites, modules, taken, named, libraries }, options) {
  const others = modules.map(([name]) => options.numberOfModule?.(name));
  if (modules.some(([, hasNumber], k) => hasNumber !== (others[k] !== undefined))) return null;
  const numbers = sites.map(([offset, about]) => options.site(offset, about));
  const withSites = inserts.replace(SITE, (_, number) => String(numbers[number]));
  const texts = (modules.length ? withSites.replace(MODULE, (_, number) => String(others[number])) : withSites).split(BETWEEN);
  const edits = starts.map((start, k) => ({ start, end: start, insert: texts[k] }));
  for (const [k, end] of ends) edits[k].end = end;
  options.builtins.takeNames?.(taken);
  for (const [start, end, name] of named) options.named?.(start, end, name);
  for (const [start, end, name] of libraries) options.library?.(start, end, name);
  return fault ? { fault } : { edits };
}

class KeptMarks {
  /** @param {CacheFolder} folder */
  constructor(folder = new CacheFolder()) {
    this.folder = folder;
    /** @type {Map<string, Kept>} the ones that were not used for longest first */
    this.inMemory = new Map();
    this.size = 0;
    /** @type {Map<string, Kept>} */
    this.unwritten = new Map();
    /** @type {NodeJS.Timeout|null} */
    this.timer = null;
    this.hits = 0;
    this.misses = 0;
  }

  /**
   * The same as `instrument` of instrument.js. Called by page.js and texts/sources.js.
   * @param {string} code
   * @param {Options} options
   * @returns {Result}
   */
  instrument(code, options) {
    const key = this.keyFor(code, options);
    if (key === null) return instrument(code, options);
    const known = this.find(key);
    const result = known && resultOf(known, options);
    if (result) {
      this.hits++;
      return result;
    }
    if (this.folder.folder === null) return instrument(code, options);
    this.misses++;
    const kept = markAndNote(code, options);
    this.keepNew(key, kept);
    return /** @type {Result} */ (resultOf(kept, options));
  }

  /**
   * The key of a text whose marks can be kept, or null.
   * @param {string} code
   * @param {Options} options
   */
  keyFor(code, options) {
    return code.length >= SHORTEST && !OWN_SIGNS.test(code) && options.builtins.signature ? keyOf(code, options) : null;
  }

  /**
   * Keeps marks that were just made.
   * @param {string} key
   * @param {Kept} kept
   */
  keepNew(key, kept) {
    this.keep(key, kept);
    if (this.folder.folder !== null) this.writeSoon(key, kept);
  }

  /**
   * The marks of a text by its key, from memory or from the folder; null if there are none. Those in memory that were used last stay longest.
   * @param {string} key
   * @returns {Kept|null}
   */
  find(key) {
    const known = this.inMemory.get(key);
    if (known) {
      this.inMemory.delete(key);
      this.inMemory.set(key, known);
      return known;
    }
    const text = this.folder.read(key);
    if (text === null) return null;
    /** @type {Kept} */
    const kept = JSON.parse(text); // its digest says that it is what was written
    this.keep(key, kept);
    return kept;
  }

  /**
   * Keeps marks in memory; if they have too many characters, those that were not used for the longest time go. A file of the cache may still have them.
   * @param {string} key
   * @param {Kept} kept
   */
  keep(key, kept) {
    this.size += kept.inserts.length;
    this.inMemory.set(key, kept);
    for (const [oldest, { inserts }] of this.inMemory) {
      if (this.size <= MOST_IN_MEMORY) break;
      this.inMemory.delete(oldest);
      this.size -= inserts.length;
    }
  }

  /**
   * Pages load meanwhile: the folder waits.
   * @param {string} key
   * @param {Kept} kept
   */
  writeSoon(key, kept) {
    if (!this.timer && !this.unwritten.size) process.once('exit', () => this.writeAll());
    this.unwritten.set(key, kept);
    if (this.timer) clearTimeout(this.timer);
    this.timer = setTimeout(() => this.writeAll(), QUIET).unref();
  }

  /** Writes what was marked since the last time to the cache. Called when nothing was marked for a while, and when the process ends. */
  writeAll() {
    if (!this.unwritten.size) return;
    for (const [key, kept] of this.unwritten) this.folder.write(key, JSON.stringify(kept));
    this.unwritten.clear();
    this.folder.trim();
  }
}

/** Those of this process. */
const keptMarks = new KeptMarks();

module.exports = { KeptMarks, keptMarks };
