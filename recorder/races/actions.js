'use strict';
// The actions of a trace, each with the actions from which it comes. This says nothing about order. A graph of what requested or created what.

const { RECORDS: TABLE, BEGINS, DISPATCHES, NOTES } = require('../trace/records.js');

/** @type {{[word: string]: {lane: string, asked?: string, by?: number}}} */
const RECORDS = TABLE;

/**
 * Made for a trace by `NamedRun` and by view/why.js.
 * @typedef {object} Action
 * @property {number} number
 * @property {number} line
 * @property {string[]} words of its record
 * @property {number} first the number of the first action of the same event
 * @property {{action: number, word: string}[]} origins
 * @property {Action|null} dispatch
 */
class Actions {
  /** @param {string} text */
  constructor(text) {
    this.lines = text.split('\n');
    /** @type {Action[]} */
    this.list = [];
    /**
     * The action in which a number is declared, by its word and itself.
     * @type {Map<string, number>}
     */
    this.declared = new Map();
    /**
     * The line of that declaration.
     * @type {Map<string, number>}
     */
    this.declaredAt = new Map();
    /**
     * The start of each dispatch, by its number.
     * @type {Map<string, Action>}
     */
    this.begins = new Map();
    /**
     * The action that an event suspended, by the number of the event's dispatch.
     * @type {Map<string, number>}
     */
    this.suspended = new Map();
    this.lines.forEach((line, k) => k > 0 && line[1] !== ' ' && this.read(line.split(' '), k + 1)); // accesses are the only records of one letter
  }

  /**
   * Takes a line of the trace.
   * @param {string[]} words
   * @param {number} line
   */
  read(words, line) {
    if (BEGINS.has(words[0])) this.start(words, line);
    if (words[0] === 'parse' || words[0] === 'new') this.declare(`element ${words[2]}`, line);
    if (words[3] === 'frame' && (words[0] === 'parse' || words[0] === 'new')) this.declare(`document ${words[4]}`, line);
    if (NOTES.has(words[0])) this.declare(`${words[0]} ${words[1]}`, line);
  }

  /**
   * A line declares something.
   * @param {string} key
   * @param {number} line
   */
  declare(key, line) {
    this.declared.set(key, this.list.length - 1);
    this.declaredAt.set(key, line);
  }

  /**
   * Begins the next action.
   * @param {string[]} words of its record
   * @param {number} line of the trace, from 1
   */
  start(words, line) {
    const number = this.list.length;
    /** @type {Action} */
    const action = { number, line, words, first: number, origins: [], dispatch: null };
    this.list.push(action);
    if (words[0] === 'inline') this.suspended.set(words[1], number - 1);
    if (DISPATCHES.has(words[0])) this.begins.set(words[1], action);
    if (words[0] === 'back') action.first = this.list[this.suspended.get(words[1]) ?? number].first;
    if (words[0] === 'run' || words[0] === 'close') action.dispatch = this.begins.get(words[1]) || null;
    action.origins = this.originsOf(words, number);
  }

  /**
   * The earlier actions from which an action comes, by its own line.
   * @param {string[]} words
   * @param {number} number
   */
  originsOf(words, number) {
    /** @type {Action['origins']} */
    const origins = [];
    /** @type {(action: number|undefined, word: string) => void} */
    const add = (action, word) => { if (action !== undefined && action >= 0 && action < number) origins.push({ action, word }); };
    const { asked, by = 0 } = RECORDS[words[0]];
    if (asked) add(this.declared.get(`${asked} ${words[by]}`), 'asked for by');
    if (words[0] === 'exec') add(this.declared.get(`element ${words[1]}`), 'its element made by');
    if (['eload', 'fire'].includes(words[0])) add(this.declared.get(`element ${words[2]}`), 'its target made by');
    if (words[0] === 'inline') add(number - 1, 'called by');
    if (words[0] === 'run') {
      add(this.declared.get(`on ${words[3]}`), 'registered by');
      add(this.begins.get(words[1])?.number, 'in');
    }
    if (words[0] === 'close') add(this.begins.get(words[1])?.number, 'in');
    if (words[0] === 'back') add(this.suspended.get(words[1]), 'goes on from');
    if (words[0] === 'parse') add(this.declared.get(`document ${words[1]}`), 'its frame made by');
    return origins;
  }
}

module.exports = { Actions };
