'use strict';
// Notes of the log that are written later than they belong: they are moved to the first action, into another one, or after the declaration of an
// element or of a frame's document.

const { BEGINS, wordOf } = require('../intake.js');

/** @typedef {import('../intake.js').Entry & {isTyped?: boolean}} Entry */

/** The document of the page itself, which its first record declares. */
const PAGE = '0';
/** A page could write a circle, or notes after notes after notes. */
const DEEPEST = 200;

/**
 * @template T
 * @param {Map<string, T[]>} lists
 * @param {string} key
 * @param {T} item
 */
function addTo(lists, key, item) {
  const list = lists.get(key);
  if (list) list.push(item);
  else lists.set(key, [item]);
}

class MovedNotes {
  constructor() {
    /** @type {Entry[]} */
    this.early = [];
    /**
     * By the element, or by `frame D` of a document.
     * @type {Map<string, Entry[]>}
     */
    this.beside = new Map();
    /**
     * By the number of the action.
     * @type {Map<string, Entry[]>}
     */
    this.into = new Map();
    /** @type {Entry[]} */
    this.rest = [];
  }

  /**
   * Takes a line that belongs to an earlier place.
   * @param {Entry} entry
   */
  add(entry) {
    const words = entry.text.split(' ');
    if (words[0] === 'early') {
      const note = { ...entry, text: words.slice(1).join(' ') };
      if (words[1] === 'new' && words[2] !== PAGE) addTo(this.beside, `frame ${words[2]}`, note);
      else this.early.push(note);
    } else if (words[0] === 'beside') addTo(this.beside, words[1], { ...entry, text: words.slice(2).join(' ') });
    else if (words[0] === 'into') addTo(this.into, words[1], { ...entry, text: words.slice(2).join(' '), ...words[2] === 'w' && { isTyped: true } });
    else this.rest.push(entry);
  }

  /** The log with each note where it belongs. */
  placed() {
    const all = this.withInto();
    /** @param {Entry[]} some */
    const withBeside = (some) => some.flatMap((entry) => [entry, ...this.besideOf(entry)]);
    return [...withBeside(all.slice(0, 1)), ...(all.length ? withBeside(this.early) : []), ...withBeside(all.slice(1))];
  }

  /** The log with each note of an action that was over at the action's end. */
  withInto() {
    if (!this.into.size) return this.rest;
    /** @type {Entry[]} */
    const all = [];
    let action = 0;
    for (const entry of this.rest) {
      if (BEGINS.has(wordOf(entry.text))) all.push(...this.into.get(String(action++)) || []);
      all.push(entry);
    }
    return [...all, ...this.into.get(String(action)) || []];
  }

  /**
   * The notes after the declaration of an element, each with those after its own. They are taken once.
   * @param {Entry} entry
   * @returns {Entry[]}
   */
  besideOf({ text }, depth = 0) {
    const words = text.split(' ');
    if ((words[0] !== 'parse' && words[0] !== 'new') || depth > DEEPEST) return [];
    const inFrame = words[3] === 'frame' ? this.takeBeside(`frame ${words[4]}`) : [];
    return [...this.takeBeside(words[2]), ...inFrame].flatMap((entry) => [entry, ...this.besideOf(entry, depth + 1)]);
  }

  /**
   * The notes that belong beside a record, which gets them once.
   * @param {string} key
   */
  takeBeside(key) {
    const notes = this.beside.get(key) || [];
    this.beside.delete(key);
    return notes;
  }
}

/**
 * Entries with each note in the action to which it belongs.
 * Called by trace/spelling.js.
 * @param {Entry[]} entries the log
 * @returns {Entry[]}
 */
function placeNotes(entries) {
  const moved = new MovedNotes();
  entries.forEach((entry) => moved.add(entry));
  return moved.placed();
}

module.exports = { placeNotes };
