'use strict';
// Places, elements, objects and locations in words, as the page's source has them.

const { FIRST_FIELD, FIRST_MODULE, FIRST_OBJECT } = require('../common/numbers.js');
const { fileNames } = require('./file-names.js');
const { SourceText } = require('./source-text.js');
const { shown } = require('../common/shown.js');

/** @typedef {import('./types').Place} Place */
/** @typedef {import('./types').NamesOfTrace} NamesOfTrace */

/**
 * Variables that are not names of the page.
 * @type {{[name: string]: string}}
 */
const WHOLES = { '(all)': 'the bytes', '(names)': 'the set of keys', '(items)': 'the items', content: 'the content' };
/** Actions at an element, whose number is their second. */
const AT_ELEMENT = new Set(['parse', 'fire', 'inline', 'eload']);

/** The base of `Words`. */
class ThingWords {
  /**
   * @param {NamesOfTrace} names
   * @param {import('./actions.js').Actions} actions
   */
  constructor(names, actions) {
    this.names = names;
    this.actions = actions;
    this.sources = new SourceText(names);
    /** @type {string[]|null} the names of the files, once one was needed */
    this.fileNames = null;
    /** Whether two sides with the same words are told apart: places by their columns, elements by their places. */
    this.isApart = false;
  }

  // ---- places

  /**
   * The short name of a file. Called by list/sides.js and view/excerpts.js.
   * @param {number} file
   */
  fileName(file) {
    this.fileNames = this.fileNames || fileNames(this.names.files).map(shown);
    return this.fileNames[file] || '';
  }

  /**
   * A place, with its column if its line is so long that a reader would not find it.
   * @param {Place|null|undefined} place
   */
  place(place) {
    if (!place) return '';
    const column = this.isApart || this.sources.isLong(place) ? `:${place[2]}` : '';
    return `${this.fileName(place[0])}:${place[1]}${column}`;
  }

  /**
   * Where something is, as the end of a sentence.
   * @param {Place|null|undefined} place
   * @param {Place} [way] where a library made the request for the page's own code at the place
   */
  at(place, way) {
    return place ? ` at ${this.place(place)}${way ? `, by way of ${this.place(way)}` : ''}` : '';
  }

  /**
   * The place of a line of the trace, or null.
   * @param {number|undefined} line
   * @returns {Place|null}
   */
  placeOfLine(line) {
    return line === undefined ? null : this.names.places[line] || null;
  }

  /** @param {Place} place */
  isOfLibrary([file]) {
    return !!this.names.files[file]?.isLibrary;
  }

  /**
   * The place to look at for an access: its own; if that is in a library, the page's own call that led to it, or the place of its action in the page's own
   * code. What the browser does at an element, as for a user's act, has the place of the element.
   * @param {number} line
   * @param {number} number of the action
   * @returns {Place|null}
   */
  placeOfAccess(line, number) {
    const action = this.actions.list[number];
    const { line: begin, words: [word, , element] } = this.actions.list[action.first];
    const caller = this.names.callers?.[line];
    const known = /** @type {Place[]} */ ([this.placeOfLine(line), caller, this.placeOfLine(action.line), this.placeOfLine(begin)].filter(Boolean));
    return known.find((place) => !this.isOfLibrary(place)) || known[0] || (AT_ELEMENT.has(word) && this.placeOfElement(element)) || null;
  }

  // ---- things

  /**
   * An element in words: its tag with its id, name or source, else its place.
   * @param {string|number} number
   * @returns {string}
   */
  element(number) {
    const facts = this.names.elements[number];
    if (!facts) return `element ${number}`;
    if (facts.standsFor) return this.element(facts.standsFor);
    if (facts.tag === 'HTMLDocument') return 'the document';
    if (facts.tag === 'Window') return 'the window';
    if (!facts.tag) return facts.why || `element ${number}`;
    const place = this.isApart ? this.inFile(this.placeOfElement(number)) : '';
    return shown(facts.tag + (facts.id ? `#${facts.id}` : '') + (facts.field && !facts.id ? `[name=${facts.field}]` : '')) + place;
  }

  /**
   * The place of an element's tag, or of the code that made it. Called by list/element-words.js.
   * @param {string|number} number
   * @returns {Place|null}
   */
  placeOfElement(number) {
    const { place, standsFor } = this.names.elements[number] || {};
    return place || this.placeOfLine(this.actions.declaredAt.get(`element ${number}`)) || (standsFor ? this.placeOfElement(standsFor) : null);
  }

  inFile(/** @type {Place|null|undefined} */ place) {
    return place ? ` (${this.place(place)})` : '';
  }

  /**
   * The document of a frame; '' for the page's own. Called by words.js.
   * @param {string} number
   */
  ofFrame(number) {
    if (number === '0') return '';
    const { address } = this.names.documents[number] || {};
    const name = (address || '').replace(/[?#].*$/, '').replace(/^.*\/(?=[^/])/, '');
    return name ? ` of the frame ${shown(name)}` : ` of frame ${number}`;
  }

  /**
   * A script in words.
   * @param {string|number} number
   * @returns {string}
   */
  script(number) {
    const facts = this.names.elements[number] || {};
    if (facts.standsFor) return this.script(facts.standsFor);
    if (facts.source) return `the script ${this.nameOfSource(facts.source)}`;
    return `the script${this.at(facts.place)}`;
  }

  /**
   * A script's `src`, which may be relative: the name of its file if that is one of the recording, else its end. Called by list/element-words.js.
   * @param {string} source
   */
  nameOfSource(source) {
    const end = source.replace(/^(?:\.{0,2}\/)+/, '/').replace(/#.*$/, '');
    const file = this.names.files.findIndex(({ address }) => address === source || address.endsWith(end.startsWith('/') ? end : `/${end}`));
    return file < 0 ? shown(source.replace(/[?#].*$/, '').replace(/^.*\//, '')) : this.fileName(file);
  }

  /**
   * A name as the page wrote it, from the form of the trace. Called by list/callbacks.js, list/sides.js and words.js.
   * @param {string} name
   */
  unescape(name) {
    if (!name.includes('%')) return shown(name);
    const bytes = name.replace(/%([0-9A-F]{2})/g, (whole, digits) => String.fromCharCode(parseInt(digits, 16)));
    return shown(Buffer.from(bytes, 'latin1').toString('utf8'));
  }

  /**
   * What a location is, and its words.
   * @param {string} location
   * @returns {{kind: 'variable'|'element'|'handler', text: string}}
   */
  location(location) {
    const [kind, digits, spelled] = location.split(' ');
    const number = Number(digits);
    const name = this.unescape(spelled);
    if (kind === 'elem') return { kind: 'element', text: `#${name}` };
    if (kind === 'slot') return { kind: 'handler', text: `${name.replace(/\/\d+$/, '')} of ${this.element(number)}` };
    if (number >= FIRST_OBJECT) return { kind: 'variable', text: `${WHOLES[name] || name} of ${this.object(number)}` };
    if (number >= FIRST_MODULE) return { kind: 'variable', text: `${name} of ${this.module(number)}` };
    if (number >= FIRST_FIELD) return { kind: 'variable', text: `${WHOLES[name] || name} of ${this.element(number - FIRST_FIELD)}` };
    return { kind: 'variable', text: name };
  }

  /**
   * A module in words.
   * @param {number} number
   */
  module(number) {
    const { module } = (this.names.objects || {})[number] || {};
    return module ? `the module ${shown(module.replace(/[?#].*$/, '').replace(/^.*\//, ''))}` : 'a module';
  }

  /**
   * An object is known by the place where it was first used, and a scope by its function.
   * @param {number} number
   */
  object(number) {
    const { scope, text, made, name, place } = (this.names.objects || {})[number] || {};
    if (scope === '{') return `the block${this.at(place)}`;
    if (scope !== undefined) return scope ? `the closure of ${shown(scope)}()${this.at(place)}` : `the closure of the function${this.at(place)}`;
    if (made === 'prototype' && name) return `${shown(name)}.prototype`;
    const what = made === 'function' && name ? `the function ${shown(name)}` : `the ${shown(made || 'object')}`;
    const known = text ? `${shown(text)}, ${what}` : what;
    return place ? `${known} first used${this.at(place)}` : known;
  }
}

module.exports = { ThingWords };
