'use strict';
// Names for the things and actions of a run that identify them in another run of the page: by kind, places in the source, and the code that requested them,
// without any number of the trace. If several have one name, they are counted in the order of the trace.

const { createHash } = require('node:crypto');
const { FIRST_FIELD, FIRST_FOREIGN_TIMEOUT, FIRST_MODULE, FIRST_OBJECT } = require('../common/numbers.js');
const { Actions } = require('./actions.js');
const { withoutKeys } = require('./spelled-locations.js');
const { Words } = require('./words.js');

/** @typedef {import('./types').Place} Place */
/** @typedef {import('./actions.js').Action} Action */

/** The notes that declare a number. */
const DECLARES = new Set(['on', 'set', 'every', 'send', 'ask', 'post']);

/** A name contains that of the code that requested the thing, and so on: the inner one is shortened. */
const shortened = (/** @type {string} */ name) => createHash('md5').update(name).digest('hex').slice(0, 12);

/** The base of `Keys`, and so of `LastingNames`. */
class NamedRun {
  /**
   * @param {string} text a trace
   * @param {import('./types').NamesOfTrace} names of that trace (the texts of files are not needed)
   * @param {boolean} isLoose whether names do not contain the code that requested a thing
   */
  constructor(text, names, isLoose = false) {
    this.text = text;
    this.names = names;
    this.isLoose = isLoose;
    this.actions = new Actions(text.replace(/end\n$/, ''));
    this.words = new Words(names, this.actions);
    /** @type {Map<string, number>} */
    this.counts = new Map();
    /**
     * The names of elements by their numbers.
     * @type {Map<string, string>}
     */
    this.elements = new Map();
    /**
     * The names of what notes declare, by the word of the note and the number.
     * @type {Map<string, string>}
     */
    this.declared = new Map();
    /**
     * The element of each document in a frame.
     * @type {Map<string, string>}
     */
    this.documents = new Map();
    /** @type {string[]} */
    this.ofActions = [];
    this.readLines();
  }

  /** The keys of what is declared, in the order of the trace. */
  readLines() {
    let action = -1;
    this.actions.lines.forEach((line, k) => {
      if (line[1] === ' ') return; // an access
      if (this.actions.list[action + 1]?.line === k + 1) action++;
      const words = line.split(' ');
      if (words[0] === 'parse' || words[0] === 'new') this.declareElement(words, k + 1, action);
      if (!DECLARES.has(words[0])) return;
      const key = `${words[0]} ${words[1]}`;
      const what = words[0] === 'on' ? this.names.handlers[words[1]] || {} : {};
      const known = `${words[0]} ${what.type || ''} ${what.function || ''} ${this.place(this.placeInName(k + 1))}`;
      this.declared.set(key, this.counted(known + this.asker(action)));
    });
  }

  /**
   * The code that requested a thing, as a part of its name.
   * @param {number} action
   */
  asker(action) {
    return this.isLoose || action < 0 ? '' : ` by ${shortened(this.action(action))}`;
  }

  /**
   * An element's name in any run: its tag, id, field, source, document and place, and who made it; with a count, if several have that. Elements that stand for
   * an event have none.
   * @param {string[]} words
   * @param {number} line
   * @param {number} action
   */
  declareElement([word, document, element, kind, inner], line, action) {
    const facts = this.names.elements[element] || {};
    if (kind === 'frame') this.documents.set(inner, element);
    if (facts.standsFor) return;
    const source = (facts.source || '').replace(/[?#].*$/, '');
    const known = [facts.tag, facts.id, facts.field, source, this.document(document), this.place(this.placeInName(line, facts))];
    const asker = word === 'new' && facts.tag ? this.asker(action) : '';
    this.elements.set(element, this.counted(known.map((one) => one || '').join(' ') + asker));
  }

  /**
   * A name, with a count if an earlier thing has it too.
   * @param {string} name
   */
  counted(name) {
    const count = (this.counts.get(name) || 0) + 1;
    this.counts.set(name, count);
    return count === 1 ? name : `${name} #${count}`;
  }

  // ---- things

  /**
   * A place by address, line and column.
   * @param {Place|null|undefined} place
   */
  place(place) {
    return place ? `${this.names.files[place[0]]?.address}:${place[1]}:${place[2]}` : '';
  }

  /**
   * The place of a line, or of a thing, in a name: if it came by way of a library that is a part of a file, that of the library. Names are older than the
   * search for such libraries, and stay. Called by list/lasting.js and keys.js.
   * @param {number} line
   * @param {{place?: Place, way?: Place}} facts
   */
  placeInName(line, facts = {}) {
    const { place, way } = facts.place ? facts : { place: this.names.places[line], way: this.names.ways?.[line] };
    return way && this.names.files[way[0]]?.isPart ? way : place;
  }

  /**
   * The address of a document, without its query.
   * @param {string} number
   */
  document(number) {
    return (this.names.documents[number]?.address || (number === '0' ? 'page' : 'frame')).replace(/[?#].*$/, '');
  }

  /**
   * The name of an element.
   * @param {string} number
   * @returns {string}
   */
  element(number) {
    const facts = this.names.elements[number] || {};
    if (facts.standsFor) return this.element(String(facts.standsFor));
    return this.elements.get(String(number)) || `${facts.tag || ''} ${facts.id || ''}`;
  }

  /**
   * The name of a handler, by its registration.
   * @param {string} number
   */
  handler(number) {
    const facts = this.names.handlers[number] || {};
    const of = facts.target && !facts.place ? this.element(String(facts.target)) : '';
    return `${this.declared.get(`on ${number}`) || facts.type || ''} ${of}`;
  }

  /**
   * The location of an access. The lookup of handlers at an element is one location, however many slots are read.
   * @param {string} location
   * @param {string} mode
   */
  location(location, mode) {
    const [kind, digits, name] = location.split(' ');
    if (kind === 'elem') return `id ${this.document(digits)} ${name}`;
    if (kind === 'slot') return `handler ${this.element(digits)} ${this.slot(name, mode)}`;
    const number = Number(digits);
    if (number >= FIRST_OBJECT) return `${this.object(number)} ${withoutKeys(name)}`;
    if (number >= FIRST_MODULE) return `module ${this.names.objects?.[number]?.module} ${name}`;
    if (number >= FIRST_FIELD) return `field ${this.element(String(number - FIRST_FIELD))} ${name}`;
    return `variable ${this.document(digits)} ${name}`;
  }

  /**
   * In the other order an object is first used at another place, so its name says what made it. A closure has the place of its function.
   * @param {number} number
   */
  object(number) {
    const { scope, made, name, place } = this.names.objects?.[number] || {};
    return scope === undefined ? `object ${made || ''} ${name || ''}` : `closure ${scope} ${this.place(place)}`;
  }

  /**
   * The name of a handler slot.
   * @param {string} name
   * @param {string} mode
   */
  slot(name, mode) {
    const [, type = '', handler] = /^(.*?)(?:\/(\d+))?$/.exec(name) || [];
    return handler && mode === 'w' ? `${type} ${this.handler(handler)}` : type;
  }

  // ---- actions

  /**
   * The name of an action, made once.
   * @param {number} number
   * @returns {string}
   */
  action(number) {
    if (this.ofActions[number] === undefined) this.ofActions[number] = this.nameAction(this.actions.list[number]);
    return this.ofActions[number];
  }

  /**
   * The name of an action, by the word with which it begins in the trace.
   * @param {Action} action
   * @returns {string}
   */
  nameAction(action) {
    const [word, a, b, c] = action.words;
    switch (word) {
      case 'parse': return `parse ${this.element(b)}`;
      case 'exec': return `exec ${this.element(a)}`;
      case 'timer': return `timer ${this.declared.get(`set ${a}`)}`;
      case 'tick': return this.nameTick(a);
      case 'anim': return `anim ${this.declared.get(`ask ${a}`)}`;
      case 'message': return `message ${this.declared.get(`post ${a}`)}`;
      case 'reply': return `reply ${this.request(b)}`;
      case 'dcl': case 'load': return `${word} ${this.document(b)}`;
      case 'eload': return `eload ${this.element(b)}`;
      case 'fire': return `event ${c} ${this.element(b)}${this.act(a)}`;
      case 'inline': return `event ${c} ${this.element(b)}${this.asker(action.number - 1)}`;
      case 'wfire': return `event ${c} window ${this.document(b)}${this.act(a)}`;
      case 'run': return `run ${this.handler(c)} in ${this.dispatch(action)}`;
      case 'close': return `close of ${this.dispatch(action)}`;
      case 'back': return this.action(action.first);
      default: return word;
    }
  }

  /**
   * The act of the user that caused an event.
   * @param {string} dispatch
   */
  act(dispatch) {
    const act = this.names.dispatches[dispatch]?.act;
    return act ? ` act ${act}` : '';
  }

  /**
   * A timeout of another window is a tick in the trace, and can be a timer in another run.
   * @param {string} number
   */
  nameTick(number) {
    return `${Number(number) >= FIRST_FOREIGN_TIMEOUT ? 'timer' : 'tick'} ${this.declared.get(`every ${number}`)}`.replace(/^timer every/, 'timer set');
  }

  /**
   * The name of a request, by its method, its address and the code that sent it.
   * @param {string} number
   */
  request(number) {
    const facts = this.names.requests[number] || {};
    return `${facts.method || ''} ${(facts.url || facts.address || '').replace(/[?#].*$/, '')} ${this.declared.get(`send ${number}`)}`;
  }

  /**
   * The name of the dispatch that an action belongs to.
   * @param {Action} action
   * @returns {string}
   */
  dispatch(action) {
    return action.dispatch ? this.action(action.dispatch.number) : '';
  }
}

module.exports = { NamedRun };
