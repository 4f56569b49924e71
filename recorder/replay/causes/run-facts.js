'use strict';
// The facts of a run in which causes are looked for: its actions, and what its code has requested.

const { LETTERS_OF_ACT } = require('../../common/numbers.js');

/** @typedef {import('../../races/actions.js').Action} Action */
/** @typedef {{number: string, place: string|undefined, way: string}} Asked a request of code: its number, the place of the code, and the way of the calls */
/** @typedef {{entries: {text: string, place?: string, stack?: string}[], names: {kind: string, number: string|number, places?: string}[]}} Log */

/** The notes of what code requests: their word and their number. */
const ASKS = /^(?:early )?(set|every|ask|post|on|send) (\d+)/;

/**
 * The number of the act to which the number of a letter belongs. Called by causes.js.
 * @param {number} act
 */
const wholeAct = (act) => act - (act % LETTERS_OF_ACT);

/** A part of `Causes`. */
class RunFacts {
  /**
   * @param {import('../../races/keys.js').Keys} keys of the run
   * @param {Log} log
   * @param {import('../types').Act[]} acts what the user did
   * @param {(file: number) => {address: string, text: string}} sourceOf the text of a file
   */
  constructor(keys, log, acts, sourceOf) {
    this.keys = keys;
    this.acts = acts;
    this.sourceOf = sourceOf;
    this.names = keys.names;
    this.list = keys.actions.list;
    this.words = keys.words;
    /**
     * What code has requested, by the word of the note.
     * @type {Map<string, Asked[]>}
     */
    this.asked = new Map();
    const ways = new Map(log.names.filter(({ kind }) => kind === 'stack').map(({ number, places }) => [String(number), places]));
    for (const { text, place, stack } of log.entries) {
      const [, word, number] = ASKS.exec(text) || [];
      if (word) this.askedBy(word).push({ number, place, way: ways.get(stack ?? '') || '' });
    }
  }

  /**
   * What code has requested by a note of a word, in the order of the run.
   * @param {string} word of the note
   */
  askedBy(word) {
    const asked = this.asked.get(word) || [];
    this.asked.set(word, asked);
    return asked;
  }

  /**
   * The first action whose words pass a test.
   * @param {(words: string[]) => unknown} test
   */
  first(test) {
    return this.list.find(({ words }) => test(words));
  }

  /**
   * The first action with a word, at a document.
   * @param {string} word
   * @param {string} document
   */
  firstOf(word, document) {
    return this.first((words) => words[0] === word && words[2] === document);
  }

  /**
   * The first step of the parser in a document.
   * @param {string} document
   */
  firstParsed(document) {
    return this.first((words) => words[0] === 'parse' && words[1] === document);
  }

  /**
   * The element for which a stand-in stands, or the element itself.
   * @param {string} element
   * @returns {string}
   */
  real(element) {
    const { standsFor } = this.names.elements[element] || {};
    return standsFor ? this.real(String(standsFor)) : element;
  }

  /**
   * The address of a document, without its fragment.
   * @param {string} document
   */
  addressOf(document) {
    return (this.names.documents[document]?.address || '').replace(/#.*$/, '');
  }

  /**
   * The number of the user's act that caused a dispatch, or 0.
   * @param {string} dispatch
   */
  actOfDispatch(dispatch) {
    return this.names.dispatches[dispatch]?.act || 0;
  }

  /**
   * The actions from which an action comes, and itself.
   * @param {number} number
   */
  originsOf(number) {
    const seen = new Set([number]);
    for (const one of seen) {
      const { origins, dispatch, first } = this.list[one];
      origins.forEach(({ action }) => seen.add(action));
      if (dispatch) seen.add(dispatch.number);
      seen.add(first);
    }
    return seen;
  }

  /**
   * The user's acts from which an action comes.
   * @param {number} number
   */
  actsBefore(number) {
    const dispatches = [...this.originsOf(number)].map((one) => this.list[one].words).filter(([word]) => /^w?fire$/.test(word));
    return new Set(dispatches.map(([, dispatch]) => this.actOfDispatch(dispatch)).filter(Boolean));
  }

  /**
   * The number of the last act of the user that an action needs, or 0.
   * @param {number} number
   */
  lastActBefore(number) {
    return Math.max(0, ...this.actsBefore(number));
  }
}

module.exports = { RunFacts, wholeAct };
