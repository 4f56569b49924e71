'use strict';
// Responses, and waits of the parser, that a replay can hold back.

const { Lines } = require('../../common/lines.js');
const { inAnyRun } = require('../../common/request-address.js');

/** @typedef {import('./run-facts.js').Action} Action */
/** @typedef {import('../types').Cause} Cause */
/** @typedef {import('../../races/types').Place} Place */

/** Elements before which no script is allowed, or which may have no tag of the page's own. */
const BEFORE_BODY = new Set(['html', 'head']);

/** @param {string} address */
const nameOfFile = (address) => address.replace(/[?#].*$/, '').replace(/^.*\//, '');

/** A part of `Causes`. */
class Files {
  /** @param {import('./run-facts.js').RunFacts} run */
  constructor(run) {
    this.run = run;
  }

  // ---- responses

  /**
   * The file that `import()` requested. Called by causes.js.
   * @param {Action} action
   */
  imported(action) {
    const place = this.run.names.places[action.line];
    const address = place ? this.run.sourceOf(place[0]).address : '';
    return this.response(address, false, 1, action.number, nameOfFile(address));
  }

  /**
   * A response to hold back: of the requests of its address, that with number `nth`.
   * @param {string|undefined} address
   * @param {boolean} isReply whether code requests it
   * @param {number} nth
   * @param {number} action
   * @param {string} what in words
   * @returns {Cause|null}
   */
  response(address, isReply, nth, action, what) {
    if (!address || !/^https?:/.test(address)) return null;
    return { means: 'response', address, isReply, nth, action, words: `the answer for ${what} is kept back` };
  }

  /**
   * The response to a request of code; null if the answer is not one response. Called by causes.js.
   * @param {string} request
   */
  reply(request) {
    const { requests } = this.run.names;
    const { method = '', url } = requests[request] || {};
    if (/^(EventSource|WebSocket|FileReader|IDB)/.test(method) || !url) return null;
    const sends = this.run.keys.actions.lines.map((line) => /^send (\d+)$/.exec(line)?.[1] || '').filter(Boolean);
    const same = sends.filter((one) => inAnyRun(requests[one]?.url || '') === inAnyRun(url));
    const first = this.run.first((words) => words[0] === 'reply' && words[2] === request);
    return first ? this.response(url, true, same.indexOf(request) + 1, first.number, this.run.words.reply(request).replace(/^the reply to /, '')) : null;
  }

  /**
   * The file of an element. Called by causes.js.
   * @param {string} element
   * @param {Action} action
   */
  file(element, action) {
    const real = this.run.real(element);
    const { loads, tag, source } = this.run.names.elements[real] || {};
    if (!loads) return null;
    const run = tag === 'script' ? this.run.first((words) => words[0] === 'exec' && this.run.real(words[1]) === real) : undefined;
    const inner = tag === 'iframe' || tag === 'frame' ? this.firstOfFrame(real) : undefined;
    const first = Math.min(action.number, run?.number ?? Infinity, inner ?? Infinity);
    return this.response(loads, false, this.orderOfLoad(real, loads), first, nameOfFile(source || loads) || this.run.words.element(real));
  }

  /**
   * Which one an element is of those that load an address.
   * @param {string} element
   * @param {string} loads
   */
  orderOfLoad(element, loads) {
    const all = [...this.run.keys.elements.keys()].filter((one) => inAnyRun(this.run.names.elements[one]?.loads || '') === inAnyRun(loads));
    return Math.max(all.indexOf(element), 0) + 1;
  }

  // ---- scripts

  /**
   * What can be held back so that a script runs later. Called by causes.js.
   * @param {Action} action
   */
  script(action) {
    const element = this.run.real(action.words[1]);
    const { place, loads } = this.run.names.elements[element] || {};
    const kind = this.kindOf(element);
    if (kind === 'inline') return [this.parserAt(place, action.number, this.run.words.script(element))];
    const file = this.file(element, action);
    const parsed = this.run.first((words) => words[0] === 'parse' && words[2] === element);
    if (kind === 'defer' && !loads) return [this.endOfPage(parsed?.words[1] || '0', this.firstDeferred() || action)];
    return [file, kind === 'sync' && !file ? this.parserAt(place, action.number, this.run.words.script(element)) : null];
  }

  /**
   * The kind of an element, as its declaration says.
   * @param {string} element
   */
  kindOf(element) {
    const line = this.run.keys.actions.lines.find((one) => /^(parse|new) /.test(one) && one.split(' ')[2] === element);
    return line ? line.split(' ')[3] : 'plain';
  }

  firstDeferred() {
    return this.run.first((words) => words[0] === 'exec' && this.kindOf(words[1]) === 'defer');
  }

  // ---- frames

  /**
   * The action that made the frame of a document. Called by causes.js.
   * @param {string} document
   */
  makerOfFrame(document) {
    const element = this.run.keys.documents.get(document);
    return element === undefined ? undefined : this.run.keys.actions.declared.get(`element ${element}`);
  }

  /**
   * The first step of the parser in a frame.
   * @param {string} element
   */
  firstOfFrame(element) {
    const [document] = [...this.run.keys.documents].find(([, of]) => this.run.real(of) === element) || [];
    return document === undefined ? undefined : this.run.firstParsed(document)?.number;
  }

  /**
   * The file of a frame's page, or null. Called by causes.js.
   * @param {string} document
   */
  frameFile(document) {
    const element = this.run.keys.documents.get(document);
    if (document === '0' || !element) return null;
    const first = this.run.firstParsed(document);
    if (!first) return null;
    return this.run.addressOf(document) === 'about:srcdoc' ? this.srcdoc(element, first) : this.file(element, first);
  }

  /**
   * The page in an attribute of a frame waits at its start.
   * @param {string} element
   * @param {Action} first
   * @returns {Cause}
   */
  srcdoc(element, first) {
    const outer = this.run.addressOf(String(this.run.names.elements[element]?.document ?? 0));
    return { means: 'parser', address: `${outer} (srcdoc)`, offset: 0, action: first.number, words: `the page inside ${this.run.words.element(element)} waits` };
  }

  // ---- the parser

  /**
   * The parser waits before the tag of the step's element, or of the last element before it that has a tag. Called by causes.js.
   * @param {Action} action
   */
  parser(action) {
    const [, document] = action.words;
    const steps = this.run.list.filter(({ words, number }) => words[0] === 'parse' && words[1] === document && number <= action.number);
    for (const step of steps.reverse()) {
      const { tag = '', place } = this.run.names.elements[step.words[2]] || {};
      if (BEFORE_BODY.has(tag)) return null;
      if (place) return this.parserAt(place, step.number, this.run.words.element(step.words[2]));
    }
    return null;
  }

  /**
   * The parser can be held before the tag at a place; null if no tag is there.
   * @param {Place|undefined} place
   * @param {number} action
   * @param {string} what in words
   * @returns {Cause|null}
   */
  parserAt(place, action, what) {
    if (!place) return null;
    const { address, text } = this.run.sourceOf(place[0]);
    const offset = new Lines(text).offsetOf(place[1], place[2]);
    if (text[offset] !== '<') return null;
    return { means: 'parser', address, offset, action, words: `the parser waits before ${what}` };
  }

  /**
   * The parser waits at the end of a page. Called by causes.js.
   * @param {string} document
   * @param {Action} action
   * @returns {Cause}
   */
  endOfPage(document, action) {
    const first = Math.min(action.number, this.firstDeferred()?.number ?? Infinity);
    return { means: 'parser', address: this.run.addressOf(document), offset: null, action: first, words: 'the parser waits at the end of the page' };
  }

  /**
   * The load of the window waits. Called by causes.js.
   * @param {string} document
   * @param {Action} action
   * @returns {Cause|null}
   */
  load(document, action) {
    const address = this.run.addressOf(document);
    if (!/^https?:/.test(address)) return null;
    return { means: 'load', address, action: action.number, words: 'the load of the window waits' };
  }
}

module.exports = { Files };
