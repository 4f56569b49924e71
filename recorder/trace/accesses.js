'use strict';
// Accesses to objects, scopes and global variables: the page writes each with the number of its action, once it may race. Here they are put into
// their actions, and what can't race is left out. With `--keep` the page writes each access in its own place too, whatever the rules say of it:
// so one recording gives both the trace that the rules leave and the whole one.

const { BEGINS, wordOf } = require('./intake.js');

/**
 * @typedef {import('./intake.js').Entry & {isKept?: boolean, why?: string}} Entry
 *   `isKept` if a write that left the old value is written as a read; `why` is, in a whole recording, what a rule says of the access: `own`
 *   (a read after a write of its action), `first` (of the action that made the thing), `same` (a write that leaves the old value)
 * @typedef {{action: number, mode: string, place?: string, found?: string, stack?: string, isKept: boolean}} Access
 * @typedef {{location: string, isOwn: boolean, accesses: Access[]}} Variable
 * @typedef {(place: string|undefined) => boolean} IsLibrary whether a place is in a library
 */

/** The lines of the log that are no whole accesses. */
const OF_PAGE = new Set(['at', 'in', 'same']);

/**
 * @param {number} number
 * @param {string} what
 */
const counted = (number, what) => `${number} ${what}${number === 1 ? '' : what.endsWith('s') ? 'es' : 's'}`;

/**
 * That these are left out is a choice: the line says what shows them. Called by list/outputs.js and view/html.js.
 * @param {{accesses: number, objects: number}} left
 */
function librariesInWords({ accesses, objects }) {
  return `${counted(accesses, 'access')} to ${counted(objects, 'object')} that only libraries touch ${accesses === 1 ? 'is' : 'are'} left out; --libraries none shows them`;
}

/** Made by recording/files.js when a log is written as a trace. */
class Accesses {
  /** @param {Entry[]} entries the log */
  constructor(entries) {
    /** @type {Map<string, Variable>} */
    this.variables = new Map();
    this.log = entries;
    this.rest = entries.filter((entry) => !this.take(entry));
    /** @type {Map<string, number>} */
    this.leftOut = new Map();
    /** What only libraries touch: so many accesses, to these objects. */
    this.ofLibraries = { accesses: 0, objects: new Set() };
    /**
     * The numbers of the actions that are steps of the parser.
     * @type {Set<number>}
     */
    this.parsers = new Set();
    let action = 0;
    for (const { text } of this.rest) {
      const word = wordOf(text);
      if (BEGINS.has(word)) action++;
      if (word === 'parse') this.parsers.add(action);
    }
  }

  /**
   * Whether an entry is one of these.
   * @param {Entry} entry
   */
  take({ text, place, found, stack }) {
    const word = wordOf(text);
    if (word === 'all' || word === 'same') return true;
    if (word === 'at') {
      const [, number, kind, object, name, own] = text.split(' ');
      this.variables.set(number, { location: `${kind} ${object} ${name}`, isOwn: own === 'own', accesses: [] });
      return true;
    }
    if (word !== 'in') return false;
    const [, action, mode, number] = text.split(' ');
    this.variables.get(number)?.accesses.push({ action: Number(action), mode: mode === 'k' ? 'r' : mode, place, found, stack, isKept: mode === 'k' });
    return true;
  }

  /**
   * The log with each access after the start of its action, without what the rules leave out.
   * @param {{isLibrary?: IsLibrary}} options
   * @returns {Entry[]}
   */
  entries({ isLibrary = () => false } = {}) {
    for (const [number, variable] of this.variables) {
      this.thin(variable);
      if (this.isAlone(variable) || this.isOfLibraries(variable, isLibrary)) this.variables.delete(number);
    }
    return this.placed();
  }

  /**
   * Counts accesses that are left out, by the reason.
   * @param {string} why
   * @param {number} number
   */
  count(why, number) {
    if (number) this.leftOut.set(why, (this.leftOut.get(why) || 0) + number);
  }

  /**
   * The parser's steps come one after the other. Of those that write one variable with no other access between them the first and the last say
   * it all: what nothing orders with a step between is ordered with neither after the last nor before the first.
   * @param {Variable} variable
   */
  thin(variable) {
    const { accesses } = variable;
    accesses.sort((a, b) => a.action - b.action);
    /**
     * @param {Access} access
     * @param {number} k
     */
    const isBetween = (access, k) => [accesses[k - 1], access, accesses[k + 1]].every((one) => this.isStep(one));
    variable.accesses = accesses.filter((access, k) => !isBetween(access, k));
    this.count('further steps of the parser that write one variable', accesses.length - variable.accesses.length);
  }

  /** @param {Access|undefined} access */
  isStep(access) {
    return access !== undefined && access.mode === 'w' && this.parsers.has(access.action);
  }

  /**
   * Whether one action alone touches a variable, it is only read, or the parser alone writes it.
   * @param {Variable} variable
   */
  isAlone({ accesses }) {
    const isShared = accesses.some(({ action }) => action !== accesses[0].action);
    if (isShared && accesses.some(({ mode }) => mode === 'w') && !accesses.every((access) => this.isStep(access))) return false;
    this.count('accesses by which nothing can race', accesses.length);
    return true;
  }

  /**
   * What the code of libraries alone touches is their own. Global variables and the page's tree are the page's.
   * @param {Variable} variable
   * @param {IsLibrary} isLibrary
   */
  isOfLibraries({ location, isOwn, accesses }, isLibrary) {
    if (!isOwn || !accesses.every(({ place }) => isLibrary(place))) return false;
    this.ofLibraries.accesses += accesses.length;
    this.ofLibraries.objects.add(location.split(' ')[1]);
    return true;
  }

  /** The accesses in their actions. */
  placed() {
    /** @type {Map<number, Entry[]>} */
    const byAction = new Map();
    for (const { location, accesses } of this.variables.values()) {
      for (const { action, mode, ...known } of accesses) {
        const list = byAction.get(action) || [];
        list.push({ text: `${mode} ${location}`, ...known });
        byAction.set(action, list);
      }
    }
    /** @type {Entry[]} */
    const entries = [];
    let action = 0;
    for (const entry of this.rest) {
      entries.push(entry);
      if (!BEGINS.has(wordOf(entry.text))) continue;
      for (const one of byAction.get(++action) || []) entries.push(one);
    }
    return entries;
  }

  // ---- the whole recording

  /** The log with all accesses, each in its own place: once in each action, as it was first. Called by recording/files.js. */
  whole() {
    const same = this.sameWrites();
    /** @type {Entry[]} */
    const entries = [];
    /** @type {Map<string, Entry>} */
    const seen = new Map();
    let action = 0;
    for (const entry of this.log) {
      const [word, mode, number, why] = entry.text.split(' ');
      if (BEGINS.has(word)) {
        action++;
        seen.clear();
      }
      if (OF_PAGE.has(word)) continue;
      const variable = word === 'all' ? this.variables.get(number) : undefined;
      if (word !== 'all') entries.push(entry);
      else if (variable) addWhole(entries, seen, { ...entry, text: `${mode} ${variable.location}`, why: mode === 'w' && same.has(`${action} ${number}`) ? 'same' : why });
    }
    return entries;
  }

  /** The writes after which the variable had its old value, by action and variable: it is known when the action is over. */
  sameWrites() {
    /** @type {Set<string>} */
    const same = new Set();
    let action = 0;
    for (const { text } of this.log) {
      const word = wordOf(text);
      if (BEGINS.has(word)) action++;
      if (word === 'same') same.add(`${action} ${text.slice('same '.length)}`);
    }
    return same;
  }

  /** How much only libraries touch, or undefined if there is nothing. Called by recording/files.js. */
  libraries() {
    const { accesses, objects } = this.ofLibraries;
    return accesses ? { accesses, objects: objects.size } : undefined;
  }

  /** What was left out, as lines. Called by recording/files.js. */
  lines() {
    const libraries = this.libraries();
    return [...[...this.leftOut].map(([why, number]) => `${why}, left out: ${number}`), ...(libraries ? [librariesInWords(libraries)] : [])];
  }
}

/**
 * A write after the first value is a write.
 * @param {Entry[]} entries
 * @param {Map<string, Entry>} seen
 * @param {Entry} entry
 */
function addWhole(entries, seen, entry) {
  const known = seen.get(entry.text);
  if (known && known.why === 'first' && entry.why !== 'first') known.why = entry.why;
  if (known) return;
  seen.set(entry.text, entry);
  entries.push(entry);
}

module.exports = { Accesses, librariesInWords };
