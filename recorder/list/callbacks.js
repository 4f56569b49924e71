'use strict';
// Actions as the list shows them: what runs, and where it was scheduled. Stable names are made from other texts (races/words.js), which never change.

const { FIRST_FOREIGN_TIMEOUT } = require('../common/numbers.js');
const { shown } = require('../common/shown.js');
const { UNSEEN } = require('../races/words.js');

/** @typedef {import('./types').Place} Place */
/** @typedef {import('../races/actions.js').Action} Action */
/**
 * What was requested, where, and by way of which place in a library; `ready` is where the page passed a callback to jQuery's `ready`, which set a timeout.
 * @typedef {{function?: string, place?: Place|null, way?: Place, ready?: Place}} Asked
 */

/** @type {{[why: string]: [what: string, asked: string]}} */
const INTERVALS = {
  setInterval: ['interval', 'set'], requestAnimationFrame: ['animation frame', 'requested'], webkitRequestAnimationFrame: ['animation frame', 'requested'],
  requestIdleCallback: ['idle callback', 'requested'], 'import()': ['module', 'requested'],
};

/** Where a callback was requested, and, if that is in a library, the page's own place. */
const ASKED = /, [a-z]+ at (\S+)(?: \((?:from (\S+)|via \S+)\))?$/;
/** Texts that take no article before them. */
const OWN_ARTICLE = /^(?:DOMContentLoaded|code whose|the |an? )/;
/** Events that report on the file of their element. */
const AT_FILE = new Set(['load', 'error']);

/** What comes before the path of an address, and before the last part of it. */
const ORIGIN = /^\w+:\/\/[^/?#]*/;
const FOLDERS = /^[^?#]*\/(?=[^/?#])/;
/** The names of a minified file, and of a function in one. */
const MINIFIED = /[.-]min\.m?js$/;
const LONGEST_MINIFIED = 2;
/** So many requests are followed back from an action to code of the page's own. */
const MOST_STEPS = 20;
/** How an action comes from the one that requested it (races/actions.js). */
const REQUESTED = new Set(['asked for by', 'registered by', 'called by', 'goes on from']);

/**
 * What a library has set for a callback that the page passed to it is where the page did.
 * @param {Asked|undefined} facts @returns {Asked|undefined}
 */
const passed = (facts) => (facts?.ready ? { place: facts.ready } : facts);

/** Made by sides.js, as its `callbacks`. */
class Callbacks {
  /**
   * @param {import('../races/words.js').Words} words
   * @param {import('./element-words.js').ElementWords} elements
   * @param {(place: Place|null|undefined) => string} placeInWords
   */
  constructor(words, elements, placeInWords) {
    this.words = words;
    this.elements = elements;
    this.names = /** @type {import('./types').Names} */ (words.names);
    this.placeInWords = placeInWords;
  }

  /**
   * What runs in an action, and where it was requested, in words. Called by sides.js.
   * @param {number} number @returns {string}
   */
  of(number) {
    const action = this.words.actions.list[number];
    const { names } = this;
    const [word, a, b] = action.words;
    switch (word) {
      case 'parse': return `parser at ${this.elements.named(b)}`;
      case 'eload': return `load of ${this.elements.of(b)}`;
      case 'exec': return this.script(a);
      case 'timer': return this.timeout(names.timeouts[a], number);
      case 'tick': case 'anim': return this.tick(a, number);
      case 'reply': return this.reply(b, number);
      case 'message': return this.asked('message', 'posted', names.messages?.[a], number);
      case 'run': return this.handler(action);
      case 'fire': case 'inline': return this.event(b, action.words[3], number);
      case 'close': return `the browser, after ${action.dispatch ? this.of(action.dispatch.number) : 'an event'}`;
      case 'back': return this.of(action.first);
      default: return this.words.action(number).replace(/^the /, '');
    }
  }

  /**
   * An event at an element; a message that is delivered as one.
   * @param {string} element @param {string} type @param {number} number of the action
   */
  event(element, type, number) {
    const isMessage = type === 'then' || !!this.names.elements[element]?.message;
    return isMessage ? this.words.action(number).replace(/^the /, '') : `${this.words.unescape(type)} at ${this.elements.of(element)}`;
  }

  /**
   * What runs in an action, as a reader of the view finds it: with its article, and with where it was requested.
   * @param {number} number
   */
  withArticle(number) {
    const text = this.of(number);
    return OWN_ARTICLE.test(text) ? text : `the ${text}`;
  }

  /**
   * A callback with its name, and where it was requested; if that is in a library, also where the page's own code is from which it comes.
   * @param {string} what @param {string} verb @param {Asked|undefined} facts @param {number} number of the action
   */
  asked(what, verb, facts, number) {
    const name = this.nameOf(facts);
    const at = facts?.place ? `, ${verb} at ${this.placeInWords(facts.place)}` : '';
    const own = at && facts?.place && this.words.isOfLibrary(facts.place) ? this.ownOrigin(number) : null;
    const [word, place] = own ? ['from', own] : ['via', facts?.way];
    return `${what}${name ? ` ${shown(name)}` : ''}${at}${at && place ? ` (${word} ${this.placeInWords(place)})` : ''}`;
  }

  /**
   * The name of a function; '' of one that a minifier has named.
   * @param {Asked|undefined} facts
   */
  nameOf(facts) {
    const name = (facts?.function || '').replace(/^(?:bound )+/, '').trim();
    const isMinified = (/** @type {Place|null|undefined} */ place) => !!place && (MINIFIED.test(this.words.fileName(place[0])) || this.words.sources.isLong(place));
    return name.length <= LONGEST_MINIFIED && (isMinified(facts?.place) || isMinified(facts?.way)) ? '' : name;
  }

  /**
   * The place in the page's own code from which an action comes: where it was requested, or what requested it, and so on. Called by sides.js.
   * @param {number} number
   * @returns {Place|null}
   */
  ownOrigin(number) {
    const { list } = this.words.actions;
    /** @type {number|undefined} */
    let next = number;
    for (let k = 0; k < MOST_STEPS && next !== undefined; k++) {
      /** @type {Action} */
      const action = list[list[next].first];
      const place = this.requestOf(action)?.place;
      if (place && !this.words.isOfLibrary(place)) return place;
      next = action.origins.find(({ word }) => REQUESTED.has(word))?.action;
    }
    return null;
  }

  /**
   * Where an action was requested, if it was.
   * @param {Action} action
   * @returns {Asked|undefined}
   */
  requestOf({ words: [word, a, b, c] }) {
    const { names } = this;
    switch (word) {
      case 'timer': return passed(names.timeouts[a]);
      case 'tick': case 'anim': return passed({ ...names.timeouts[Number(a) - FIRST_FOREIGN_TIMEOUT], ...names.intervals[a] });
      case 'reply': return names.requests[b];
      case 'message': return names.messages?.[a];
      case 'run': return names.handlers[c];
      default: return undefined;
    }
  }

  /**
   * A timeout, or a callback of the page that jQuery's `ready` runs in one.
   * @param {Asked|undefined} facts @param {number} action
   */
  timeout(facts, action) {
    if (facts?.ready) return this.asked("callback of jQuery's ready", 'registered', { place: facts.ready }, action);
    return this.asked('timeout', 'scheduled', facts, action);
  }

  /**
   * A script in words; its place, if it has no file, only where two sides are told apart.
   * @param {string} number @returns {string}
   */
  script(number) {
    const file = this.elements.fileOf(number);
    if (file) return `script ${file}`;
    return this.words.isApart ? this.words.script(number).replace(/^the /, '') : 'script';
  }

  /**
   * The callback of an interval, or of what counts as one. Called by replay/causes/causes.js.
   * @param {string} number @param {number} action
   */
  tick(number, action) {
    const facts = this.names.intervals[number] || {};
    if (!facts.why) return this.timeout({ ...this.names.timeouts[Number(number) - FIRST_FOREIGN_TIMEOUT], ...facts }, action);
    const [what, verb] = INTERVALS[facts.why] || [`callback of ${shown(facts.why)}`, 'requested'];
    return this.asked(what, verb, facts, action);
  }

  /**
   * The last part of the address that a request is for; the whole path, where two sides are told apart. Called by race-facts.js.
   * @param {string} number
   */
  request(number) {
    const { address } = this.names.requests[number] || {};
    return address ? shown(address.replace(this.words.isApart ? ORIGIN : FOLDERS, '')) : 'a request';
  }

  /**
   * The reply of a request, and where it was requested.
   * @param {string} number @param {number} action
   */
  reply(number, action) {
    return this.asked(`reply of ${this.request(number)}`, 'requested', { ...this.names.requests[number], function: '' }, action);
  }

  /**
   * A handler, and where it was registered.
   * @param {Action} action
   */
  handler(action) {
    const facts = this.names.handlers[action.words[3]] || {};
    if (facts.type === 'reply of fetch') return this.reply(action.dispatch?.words[2] || '', action.number);
    if (facts.type === UNSEEN) return UNSEEN;
    if (facts.type === 'await') return this.asked('code after await', 'waiting', { ...facts, function: '' }, action.number);
    if (facts.type === 'job') return this.asked('promise reaction', 'set', facts, action.number);
    const place = facts.place || this.names.elements[facts.target ?? '']?.place;
    return this.asked(`${shown(facts.type || 'event')} handler${this.ofReported(action)}`, 'registered', { ...facts, place }, action.number);
  }

  /**
   * What a handler hears of, as of a load: a request, or an element with a file; where two sides are told apart, at any event of such an element.
   * @param {Action} action
   */
  ofReported({ dispatch }) {
    const [word, , number, type] = dispatch?.words || [];
    if (word === 'reply') return ` of ${this.request(number)}`;
    const isOfFile = word === 'eload' || ((this.words.isApart || AT_FILE.has(type)) && (word === 'fire' || word === 'inline'));
    const file = isOfFile ? this.elements.fileOf(number) : '';
    return file && ` of ${file}`;
  }

  // ---- in sentences

  /**
   * What runs in an action, as the subject of a sentence: without where it was requested.
   * @param {number} number @param {boolean} hasPlace whether that place is added all the same
   */
  subject(number, hasPlace = false) {
    const { words: [word, a] } = this.words.actions.list[this.words.actions.list[number].first];
    const text = word === 'exec' && !this.elements.fileOf(a) ? this.words.script(a) : this.of(number).replace(ASKED, (whole, at, own) => (hasPlace ? ` at ${own || at}` : ''));
    return OWN_ARTICLE.test(text) ? text : `the ${text}`;
  }

  /**
   * The subjects of a sentence about two sides, which are different. The second is the first in the sentence. Called by sides.js.
   * @param {number} one an action @param {number} other an action
   * @returns {[string, string]}
   */
  subjects(one, other) {
    /** @type {(hasPlace: boolean) => [string, string]} */
    const both = (hasPlace) => [this.subject(one, hasPlace), this.subject(other, hasPlace)];
    for (const tell of [() => both(false), () => both(true), () => this.words.apart(() => both(true))]) {
      const [first, second] = tell();
      if (first !== second) return [first, second];
    }
    return ['another one', `one run of ${this.subject(one, true)}`];
  }
}

module.exports = { Callbacks, ASKED };
