'use strict';
// Elements as the list calls them: those without an id or the name of a field by their file, their text or classes, or their place. Stable names are made
// from other texts (races/thing-words.js), which never change.

const { FIRST_FIELD, FIRST_MODULE } = require('../common/numbers.js');
const { labelOf } = require('./element-labels.js');
const { sourceOf, withoutHandler } = require('./without-handler.js');

/** @typedef {import('./types').Place} Place */

/** Elements that a page has once. */
const ONCE = new Set(['html', 'head', 'body', 'HTMLDocument', 'Window']);

/** Made by sides.js, as its `elements`. */
class ElementWords {
  /**
   * @param {import('../races/words.js').Words} words
   * @param {(place: Place|null|undefined) => string} placeInWords
   */
  constructor(words, placeInWords) {
    this.words = words;
    this.names = /** @type {import('./types').Names} */ (words.names);
    this.placeInWords = placeInWords;
  }

  /**
   * An element in words, with its place if nothing else tells it apart (`element` has that place itself, where two sides are told apart).
   * @param {string|number} number
   * @returns {string}
   */
  of(number) {
    const { standsFor } = this.names.elements[number] || {};
    if (standsFor) return this.of(standsFor);
    const named = this.named(number);
    return named === this.words.element(number) && !this.words.isApart ? named + this.placeOf(number) : named;
  }

  /**
   * An element in words, where its place is shown beside it.
   * @param {string|number} number
   * @returns {string}
   */
  named(number) {
    const { tag = '', id, field, standsFor } = this.names.elements[number] || {};
    if (standsFor) return this.named(standsFor);
    const file = this.fileOf(number);
    if (file && !id && !field) return `${tag} ${file}`;
    const label = this.labelOf(number);
    return label.startsWith(' "') && tag === 'a' ? `link${label}` : this.words.element(number) + label;
  }

  /**
   * The tag of an element; '' if it is unknown, or the element is none, as a document.
   * @param {string|number} number
   * @returns {string}
   */
  tagOf(number) {
    const { tag = '', standsFor } = this.names.elements[number] || {};
    if (standsFor) return this.tagOf(standsFor);
    return ONCE.has(tag) ? '' : tag.toLowerCase();
  }

  /**
   * Whether a number is for the document or the window.
   * @param {string|number} number
   * @returns {boolean}
   */
  isOfPage(number) {
    const { tag = '', standsFor } = this.names.elements[number] || {};
    return standsFor ? this.isOfPage(standsFor) : tag === 'HTMLDocument' || tag === 'Window';
  }

  /**
   * The file that an element has, as a script or an image; '' if it has none.
   * @param {string|number} number
   * @returns {string}
   */
  fileOf(number) {
    const { source, loads, standsFor } = this.names.elements[number] || {};
    if (standsFor) return this.fileOf(standsFor);
    const address = source || loads;
    return address ? this.words.nameOfSource(address) : '';
  }

  /**
   * Where an element is in the page, or which code made it, if it has neither an id nor the name of a field.
   * @param {string|number} number
   */
  placeOf(number) {
    const { tag = '', id, field, place } = this.names.elements[number] || {};
    const at = tag && !id && !field && !ONCE.has(tag) ? this.words.placeOfElement(number) : null;
    return at ? `${place ? '' : ' made'} at ${this.placeInWords(at)}` : '';
  }

  /**
   * What tells an element apart that has neither an id nor the name of a field.
   * @param {string|number} number
   * @returns {string}
   */
  labelOf(number) {
    const { tag = '', id, field } = this.names.elements[number] || {};
    return tag && !id && !field ? labelOf(sourceOf(this.words, number), tag) : '';
  }

  /**
   * What the browser does for an event of a user that no handler takes, as the end of a sentence; '' if nothing, or this is unknown.
   * @param {string|number} number of the target
   * @param {string} type of the event
   */
  withoutHandler(number, type) {
    return withoutHandler(this.words, number, type);
  }

  /**
   * A text about a location that ends with the words of its element, with those of the list.
   * @param {string} location @param {string} text
   */
  inText(location, text) {
    const [kind, digits] = location.split(' ');
    const number = Number(digits);
    const element = kind === 'slot' ? number : kind === 'var' && number >= FIRST_FIELD && number < FIRST_MODULE ? number - FIRST_FIELD : null;
    const words = element === null ? '' : this.words.element(element);
    return element !== null && text.endsWith(words) ? text.slice(0, text.length - words.length) + this.of(element) : text;
  }
}

module.exports = { ElementWords };
