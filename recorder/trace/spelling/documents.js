'use strict';
// The documents and elements of a trace, and what may begin in them: the order that the rules of docs/rules.md ("Out of order") ask for.

/**
 * @typedef {{lastStep: number, lastDeferred: number, isReady: boolean, isLoaded: boolean}} DocumentState `lastStep` is the number of its last
 *   parse step, `lastDeferred` that of the last deferred script that has run
 * @typedef {{kind: string, document: DocumentState, step: number, hasRun: boolean, hasLoaded: boolean}} ElementState `step` is the number of its
 *   parse step, 0 if a script made it
 */

const SCRIPTS = new Set(['inline', 'sync', 'defer', 'async']);
const BLOCKING = new Set(['inline', 'sync']);

/** @returns {DocumentState} */
const newDocument = () => ({ lastStep: 0, lastDeferred: 0, isReady: false, isLoaded: false });

/** A part of `LegalTrace`. */
class Documents {
  constructor() {
    /** @type {Map<string, DocumentState>} */
    this.documents = new Map([['0', newDocument()]]);
    /** @type {Map<string, ElementState>} */
    this.elements = new Map();
    this.steps = 0;
  }

  /**
   * Whether a document was declared. Called by legal.js.
   * @param {string} document
   */
  has(document) {
    return this.documents.has(document);
  }

  /**
   * Whether an element was declared. Called by legal.js.
   * @param {string} element
   */
  hasElement(element) {
    return this.elements.has(element);
  }

  /**
   * A script makes an element. Called by legal.js.
   * @param {string[]} tokens document, element and kind, of a frame also its document
   */
  make([document, element, kind, inner]) {
    const state = this.documents.get(document);
    if (!state || !this.isNew(element, inner)) return false;
    this.declare(element, { kind, document: state, step: 0, hasRun: false, hasLoaded: false }, inner);
    return true;
  }

  /**
   * The parser makes an element. Called by legal.js.
   * @param {string[]} tokens as of `make`
   */
  parse([document, element, kind, inner]) {
    const state = this.documents.get(document);
    if (!state || !this.isNew(element, inner) || state.lastDeferred || state.isReady || state.isLoaded) return false;
    state.lastStep = ++this.steps;
    this.declare(element, { kind, document: state, step: this.steps, hasRun: false, hasLoaded: false }, inner);
    return true;
  }

  /**
   * Whether an element, and the document in it, can be declared.
   * @param {string} element
   * @param {string|undefined} inner the document of a frame
   */
  isNew(element, inner) {
    return !this.elements.has(element) && (inner === undefined || !this.documents.has(inner));
  }

  /**
   * Declares an element, and the document in it.
   * @param {string} element
   * @param {ElementState} state
   * @param {string|undefined} inner
   */
  declare(element, state, inner) {
    this.elements.set(element, state);
    if (inner !== undefined) this.documents.set(inner, newDocument());
  }

  /**
   * A script runs. Called by legal.js.
   * @param {string} element
   */
  run(element) {
    const script = this.elements.get(element);
    if (!script || !SCRIPTS.has(script.kind) || script.hasRun || script.hasLoaded || !this.mayRun(script)) return false;
    script.hasRun = true;
    if (script.step && script.kind === 'defer') script.document.lastDeferred = script.step;
    return true;
  }

  /**
   * Whether a script that the parser made comes before all that waits for it.
   * @param {ElementState} script
   */
  mayRun({ kind, document, step }) {
    if (!step) return true;
    if (document.isLoaded) return false;
    if (kind === 'async') return true;
    if (document.isReady) return false;
    return BLOCKING.has(kind) ? document.lastStep === step && !document.lastDeferred : document.lastDeferred < step;
  }

  /**
   * DOMContentLoaded of a document begins. Returns whether it may. Called by legal.js.
   * @param {string} document
   */
  beginReady(document) {
    const state = this.documents.get(document);
    if (!state || state.isReady || state.isLoaded) return false;
    state.isReady = true;
    return true;
  }

  /**
   * The load of a document begins. Returns whether it may. Called by legal.js.
   * @param {string} document
   */
  beginLoad(document) {
    const state = this.documents.get(document);
    if (!state || state.isLoaded) return false;
    state.isLoaded = true;
    return true;
  }

  /**
   * The load of an element begins. Returns whether it may. Called by legal.js.
   * @param {string} element
   */
  beginElementLoad(element) {
    const state = this.elements.get(element);
    if (!state || state.hasLoaded) return false;
    state.hasLoaded = true;
    return true;
  }
}

module.exports = { Documents };
