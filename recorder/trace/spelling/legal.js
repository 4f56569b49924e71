'use strict';
// Which records of a trace the analyzer would refuse: these are left out, as a page may have written any log.
//
// Of the records that `take` accepts, in this order, it holds (docs/format.md, "Refusals"): each is one of the version, written in its only form; no
// number is used before it was declared, and none is declared or started twice; only scripts run; dispatches nest; and no rule leads from an event
// back to one that has begun. The limits on numbers of records, accesses and pairs are the concern of trace/limits.js. With a record that begins an
// action all up to the next one is left out.

const { isRecord } = require('../log/shapes.js');
const { BEGINS, FORMS, LETTERS, RECORDS } = require('../records.js');
const { Documents } = require('./documents.js');

/**
 * @typedef {{number: string, isInline: boolean, isClosing: boolean, suspended: string, group: number}} Dispatch a dispatch that is not over;
 *   `suspended` is the word of the event that an inline one suspends, `group` the greatest one that a handler ran in
 */

/** The limit of the analyzer (docs/format.md, "Refusals"). */
const MOST_INLINE = 256;
/** The words of events in which code runs: it may dispatch others. */
const RUNS_CODE = new Set([...BEGINS].filter((word) => !['parse', 'back'].includes(word) && !RECORDS[word].isDispatch));
/** The notes that declare a number of their own kind. */
const DECLARES = new Map(FORMS.filter((form) => !BEGINS.has(form.word) && /^[a-z]/.test(form.arguments)).map((form) => [form.word, LETTERS[form.arguments[0]]]));
/** What begins once after the note that declares it. */
const STARTS_ONCE = new Map(FORMS.filter(({ starts, asked }) => starts && asked).map(({ word, starts = '' }) => [word, LETTERS[starts.toLowerCase()]]));

/** Made by `Spelling`, which asks it about each record. */
class LegalTrace {
  /** @param {number} version */
  constructor(version) {
    this.version = version;
    this.documents = new Documents();
    /**
     * The numbers that were declared, started, or that name a dispatch, by their kind.
     * @type {Map<string, Set<string>>}
     */
    this.known = new Map();
    /** @type {Dispatch[]} */
    this.stack = [];
    this.inlines = 0;
    /** The word of the running event; '' before the first one, and after a record that was left out. */
    this.running = '';
    this.leftOut = 0;
  }

  /**
   * Whether a record stays.
   * @param {string} text
   */
  take(text) {
    const [word] = text.split(' ', 1);
    const isKept = isRecord(text, this.version) && (BEGINS.has(word) ? this.begin(text.split(' ')) : this.running !== '' && this.note(text.split(' ')));
    if (!isKept) this.leftOut++;
    if (!isKept && BEGINS.has(word)) this.running = '';
    return isKept;
  }

  /**
   * Whether a number of a kind was declared.
   * @param {string} kind
   * @param {string} number
   */
  has(kind, number) {
    return this.known.get(kind)?.has(number) === true;
  }

  /**
   * Takes note of a number; whether it is new.
   * @param {string} kind
   * @param {string} number
   */
  add(kind, number) {
    const numbers = this.known.get(kind) || new Set();
    this.known.set(kind, numbers);
    return !numbers.has(number) && numbers.add(number) !== undefined;
  }

  /**
   * A record that begins no action. Returns whether the analyzer takes it.
   * @param {string[]} tokens
   */
  note([word, ...rest]) {
    const kind = DECLARES.get(word);
    if (kind) return this.add(kind, rest[0]);
    return word !== 'new' || this.documents.make(rest);
  }

  // ---- records that begin an action

  /**
   * A record that begins an action. Returns whether the analyzer takes it.
   * @param {string[]} tokens
   */
  begin([word, ...rest]) {
    if (!this.isPlaced(word, rest[0]) || !this.start(word, rest)) return false;
    this.running = word === 'back' ? this.leaveInline() : word;
    return true;
  }

  /**
   * Whether the stack of dispatches allows a record here.
   * @param {string} word
   * @param {string} number
   */
  isPlaced(word, number) {
    const top = this.stack[this.stack.length - 1];
    if (word === 'inline') return RUNS_CODE.has(this.running) && this.inlines < MOST_INLINE;
    if (word === 'job') return this.inlines === 0;
    if (word === 'run' || word === 'close') return top !== undefined && top.number === number && !top.isClosing;
    if (word === 'back') return top !== undefined && top.number === number && top.isClosing;
    return top === undefined;
  }

  /**
   * Starts what a record of this word starts.
   * @param {string} word
   * @param {string[]} rest
   * @returns {boolean} whether what it starts was declared, has not started, and may start now
   */
  start(word, rest) {
    const [first, second, third] = rest;
    const once = STARTS_ONCE.get(word);
    if (once) return this.has(once, first) && this.add(`${once} started`, first);
    switch (word) {
      case 'parse': return this.documents.parse(rest);
      case 'exec': return this.documents.run(first);
      case 'tick': return this.has('interval', first);
      case 'run': return this.runHandler(Number(second), third);
      case 'close': return this.close();
      case 'back': return true;
      default: return this.mayDispatch(word, second) && this.dispatch(word, first);
    }
  }

  /**
   * Whether a dispatch may begin at its target.
   * @param {string} word
   * @param {string} target
   */
  mayDispatch(word, target) {
    switch (word) {
      case 'dcl': return this.documents.beginReady(target);
      case 'load': return this.documents.beginLoad(target);
      case 'eload': return this.documents.beginElementLoad(target);
      case 'wfire': return this.documents.has(target);
      case 'reply': return this.has('request', target);
      default: return this.documents.hasElement(target);
    }
  }

  /**
   * A dispatch begins.
   * @param {string} word
   * @param {string} number
   */
  dispatch(word, number) {
    const isInline = word === 'inline';
    if (!this.add('dispatch', number)) return false;
    this.stack.push({ number, isInline, isClosing: false, suspended: this.running, group: 0 });
    this.inlines += isInline ? 1 : 0;
    return true;
  }

  /**
   * A handler runs in a group of the innermost dispatch. Returns whether it may.
   * @param {number} group
   * @param {string} handler
   */
  runHandler(group, handler) {
    const top = this.stack[this.stack.length - 1];
    if (!this.has('handler', handler) || group < top.group) return false;
    top.group = group;
    return true;
  }

  /** A dispatch that is not inline is over when its close begins. */
  close() {
    const top = this.stack[this.stack.length - 1];
    top.isClosing = true;
    if (!top.isInline) this.stack.pop();
    return true;
  }

  /** An inline dispatch ends. Returns what was suspended by it. */
  leaveInline() {
    this.inlines--;
    return /** @type {Dispatch} */ (this.stack.pop()).suspended;
  }
}

module.exports = { LegalTrace };
