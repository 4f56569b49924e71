'use strict';
// Writes a log as records of one version of the format, all of which the analyzer takes (spelling/legal.js). The text of a trace file has these lines.
//
// A line of the log is a record, or one of these. After tabs it has its place in the browser's copy (or the number of a mark), what an access found
// or wrote (page/log/values.js), and, if code requests something, the number of its stack: trace/names.js takes the first place in it outside of libraries.
// - `early NOTE`: a note in the first action, as nothing recorded ran, or after the declaration of the frame whose document it names; `beside E NOTE`: after
//   the declaration of element E; `into A NOTE`: at the end of action A, which may be long over: the stand-in of an event that A has queued, the handler of
//   what requested something there. NOTE can be the write of a field by a key, which the key's `input` event does later.
// - `look E TYPE`: reads of all slots of E for the type that the log ever writes; `look E TYPE capture`: of those of handlers that capture, which a line
//   `captures H` names.
// - `set T DELAY DOCUMENT`: `set`, or `every` where the timeouts of another window are the ones that are compared.
// - `ask A`, `anim A`: so in version 3; before, `every` and `tick`.
// - `post M DOCUMENT E`, `message M P E`: so in version 3, in the message a stand-in, an `inline` dispatch P at it, and its `back`; before, `new` of a plain
//   element in the sender and `fire` at it.
// - `module N`, `is N E`, `asked I known`, `came N I`: the run of the module's script element, or of what `import()` asked for, by its address, else in the
//   order of the calls.
// - `at N LOCATION`, `in A MODE N`: an access to a variable of an object, a scope or a window in action A, written once it may race (trace/accesses.js puts
//   it there). MODE is `r`, `w`, or `k`: a write of the value that was there, written as a read.
// - `all MODE N WHY`, `same N`: with `--keep` the same in its own place, whatever the rules say of it, which is WHY; the write of N by the running action
//   left the old value.

const { FIRST_FOREIGN_TIMEOUT, FIRST_LONE_MODULE } = require('../common/numbers.js');
const { foreignTimeouts } = require('./spelling/clocks.js');
const { LegalTrace } = require('./spelling/legal.js');
const { placeNotes } = require('./spelling/notes.js');

/** @typedef {import('./intake.js').Entry & {isKept?: boolean, isTyped?: boolean, why?: string}} SpelledEntry a record with what is known of it (trace/accesses.js) */

/** Of the trace format (docs/format.md, "Versions"). */
const NEWEST_VERSION = 3;

/**
 * All slots that were ever written at an element for a type, as a dispatch looks at each of them.
 * @param {SpelledEntry[]} entries
 */
function collectSlots(entries) {
  /** @type {Map<string, Set<string>>} */
  const slots = new Map();
  for (const { text } of entries) {
    const found = /^w (slot \d+ \S+)\/\d+$/.exec(text);
    if (found) slots.set(found[1], (slots.get(found[1]) || new Set()).add(text.slice(2)));
  }
  return slots;
}

/**
 * What the log says of the runs of modules, by the number of the run.
 * @param {SpelledEntry[]} entries
 * @param {string} word
 * @returns {Map<string, string>}
 */
function collectModules(entries, word) {
  return new Map(entries.map(({ text }) => text.split(' ')).filter((words) => words[0] === word).map(([, run, number]) => [run, number]));
}

/** Made by recording/files.js for each trace that is written. */
class Spelling {
  /**
   * @param {SpelledEntry[]} entries the log
   * @param {number} version
   */
  constructor(entries, version) {
    this.version = version;
    /** @type {SpelledEntry[]} */
    this.entries = placeNotes(entries);
    this.slots = collectSlots(this.entries);
    this.capturers = new Set(this.entries.map(({ text }) => /^captures (\d+)$/.exec(text)?.[1]).filter(Boolean));
    this.moduleElements = collectModules(this.entries, 'is');
    this.askedModules = collectModules(this.entries, 'came');
    this.foreign = foreignTimeouts(this.entries, version);
    /**
     * In version 3: the documents in which messages were posted, and their dispatches.
     * @type {Map<string, string>}
     */
    this.documentsOfMessages = new Map();
    this.messageDispatches = new Set();
    /** @type {string[]} */
    this.askedIntervals = [];
    this.loneModules = 0;
    /** @type {SpelledEntry[]} */
    this.out = [];
    /** @type {SpelledEntry} */
    this.entry = { text: '' };
    /** How many records the analyzer would refuse: they are left out. */
    this.refused = 0;
    /** @type {Map<string, (words: string[]) => void>} */
    this.words = new Map(Object.entries({
      look: ([, element, type, capture]) => this.spellLook(element, type, capture === 'capture'),
      captures: () => {},
      set: ([, timeout, delay]) => this.spellSet(timeout, delay),
      timer: ([, timeout]) => this.put(this.foreign.has(timeout) ? `tick ${FIRST_FOREIGN_TIMEOUT + Number(timeout)}` : `timer ${timeout}`),
      ask: ([, number]) => this.put(version >= 3 ? `ask ${number}` : `every ${number} 0`),
      anim: ([, number]) => this.put(version >= 3 ? `anim ${number}` : `tick ${number}`),
      post: ([, message, document, standIn]) => this.spellPost(message, document, standIn),
      message: ([, message, dispatch, standIn]) => this.spellMessage(message, dispatch, standIn),
      close: (words) => this.spellClose(words),
      module: ([, run]) => this.spellModule(run),
      is: () => {},
      came: () => {},
      asked: ([, interval, known]) => { if (known !== 'known') this.askedIntervals.push(interval); },
    }));
  }

  /** The records, each with its place; the header and `end` are not among them. Called by recording/files.js. */
  records() {
    this.out = [];
    this.entries.forEach((entry) => this.spell(entry));
    const legal = new LegalTrace(this.version);
    this.out = this.out.filter(({ text }) => legal.take(text));
    this.refused = legal.leftOut;
    return this.out;
  }

  /**
   * A record, with what is known of the entry that is written.
   * @param {string} text
   */
  put(text) {
    const { place, found, stack } = this.entry;
    this.out.push({ text, place, found, stack });
  }

  /**
   * Writes the records for a line of the log.
   * @param {SpelledEntry} entry
   */
  spell(entry) {
    this.entry = entry;
    const words = entry.text.split(' ');
    const spellWord = this.words.get(words[0]);
    if (spellWord) spellWord(words);
    else this.out.push(entry);
  }

  /**
   * A look at which handlers there are reads the slot of the type, and all handlers in it.
   * @param {string} element
   * @param {string} type
   * @param {boolean} isOfCapturers
   */
  spellLook(element, type, isOfCapturers) {
    const slot = `slot ${element} ${type}`;
    if (!isOfCapturers) this.put(`r ${slot}`);
    for (const one of this.slots.get(slot) || []) {
      if (!isOfCapturers || this.capturers.has(one.slice(one.lastIndexOf('/') + 1))) this.put(`r ${one}`);
    }
  }

  /**
   * A timeout, or an interval that ticks once, if its delay is not compared with those of others (spelling/clocks.js).
   * @param {string} timeout
   * @param {string} delay
   */
  spellSet(timeout, delay) {
    if (this.foreign.has(timeout)) this.put(`every ${FIRST_FOREIGN_TIMEOUT + Number(timeout)} ${delay}`);
    else this.put(`set ${timeout} ${delay}`);
  }

  /**
   * A message is posted: a record of version 3, before that a stand-in element, so that the message comes after its sender.
   * @param {string} message
   * @param {string} document
   * @param {string} standIn
   */
  spellPost(message, document, standIn) {
    this.documentsOfMessages.set(message, document);
    this.put(this.version >= 3 ? `post ${message}` : `new ${document} ${standIn} plain`);
  }

  /**
   * In version 3 a message is an event without handlers: they are those of a dispatch at a stand-in element in it.
   * @param {string} message
   * @param {string} dispatch
   * @param {string} standIn
   */
  spellMessage(message, dispatch, standIn) {
    if (this.version < 3) {
      this.put(`fire ${dispatch} ${standIn} message`);
      return;
    }
    this.messageDispatches.add(dispatch);
    this.put(`message ${message}`);
    this.put(`new ${this.documentsOfMessages.get(message)} ${standIn} plain`);
    this.put(`inline ${dispatch} ${standIn} message`);
  }

  /**
   * The end of a dispatch. That of a message of version 3 is inline in the message's action, which then goes on (`back`).
   * @param {string[]} words
   */
  spellClose(words) {
    this.put(words.join(' '));
    if (this.messageDispatches.has(words[1])) this.put(`back ${words[1]}`);
  }

  /**
   * A module is the run of its script element, or of what `import()` requested: if its address is not known, the first one that is left.
   * @param {string} run
   */
  spellModule(run) {
    const element = this.moduleElements.get(run);
    if (element) {
      this.put(`exec ${element}`);
      return;
    }
    const asked = this.askedModules.get(run) || this.askedIntervals.shift();
    if (asked) {
      this.put(`tick ${asked}`);
      return;
    }
    const lone = FIRST_LONE_MODULE + this.loneModules++;
    this.out.splice(1, 0, { text: `every ${lone} 0`, place: this.entry.place });
    this.put(`tick ${lone}`);
  }
}

module.exports = { Spelling, NEWEST_VERSION };
