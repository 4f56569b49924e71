// Custom elements that the parser makes: in which action their reactions run, while no code is on the stack. `connectedCallback`, `attributeChangedCallback`
// and constructors of web components.

import { each } from '../core/lists.js';
import { replaceMethod } from '../core/replacing.js';
import { fits } from '../core/strings.js';
import { Map, Reflect, apply, getOwnPropertyDescriptor } from '../core/taken.js';
import { nameOfFunction } from '../log/values.js';

/** The reactions that the browser calls for elements of the parser, and takes from the prototype before any other code of the page runs in `define`. */
const REACTIONS = ['connectedCallback', 'attributeChangedCallback', 'formAssociatedCallback', 'formDisabledCallback'];
/** Those that it calls only because of code, in which they are. */
const OF_CODE = ['disconnectedCallback', 'adoptedCallback', 'formResetCallback', 'formStateRestoreCallback'];
/** Those that the parser calls in the order of an upgrade. */
const IN_ORDER = /^(connected|attributeChanged)Callback$/;
/** `Node.DOCUMENT_POSITION_DISCONNECTED` and `.._FOLLOWING`. */
const IS_APART = 1;
const FOLLOWS = 4;

/** @typedef {import('../types').Moment} Moment */
/**
 * The last reaction of one definition that ran apart: its element, and its end.
 * @typedef {{element: Element|null, end: Moment|null}} Former
 */
/**
 * A reaction of one definition: its name, who defined it, whether the parser has waited for that, and the one that ran before it.
 * @typedef {{name: string, function: string|undefined, moment: Moment|null, isBefore: boolean, former: Former|null}} Reaction
 */

/** One for each document: `page.reactions`. */
class Reactions {
  /** @param {import('../types').Page} page */
  constructor(page) {
    this.page = page;
    this.recording = page.recording;
    /**
     * By name: where the element was defined; until then the promise that it will be.
     * @type {Map<string, {moment?: Moment, promise?: object}>}
     */
    this.definitions = new Map();
    this.get = page.window.CustomElementRegistry.prototype.get;
  }

  /** Hooks `customElements.define`, from which the browser reads the reactions, and `whenDefined`. */
  start() {
    const reactions = this;
    const { CustomElementRegistry, customElements } = this.page.window;
    replaceMethod(CustomElementRegistry.prototype, 'define', (native) => function define(name, constructor) {
      const restores = reactions.recording.isOver ? [] : reactions.#watch(constructor);
      try {
        if (this === customElements && typeof name === 'string') reactions.#noteDefinition(name, constructor);
        return apply(native, this, arguments);
      } finally {
        each(restores, (restore) => restore());
      }
    });
    replaceMethod(CustomElementRegistry.prototype, 'whenDefined', (native) => function whenDefined(name) {
      const promise = apply(native, this, arguments);
      if (this === customElements && typeof name === 'string') reactions.#noteAwaited(name, promise);
      return promise;
    });
  }

  // ---- definitions

  /**
   * What waits for an element's definition comes after it and what its event does until microtasks run, also if the definition is there already. An
   * earlier reaction at it is a later microtask.
   * @param {string} name of the element that is being defined
   * @param {unknown} constructor
   */
  #noteDefinition(name, constructor) {
    const { recording, page: { definitions, promises, jobs, natives, number, window } } = this;
    definitions.noteDefinition(name, constructor);
    if (!promises.isSeen()) return;
    natives.queueMicrotask(() => {
      if (recording.isOver || !recording.isCheckpoint || recording.contexts.length || !apply(this.get, window.customElements, [name])) return;
      jobs.endContinuation();
      if (recording.running.hasLateJobs || !recording.mayDispatch()) return;
      const moment = recording.point(number);
      const promise = this.definitions.get(name)?.promise;
      if (promise && !promises.settled.has(promise)) promises.settled.set(promise, moment);
      if (!this.definitions.get(name)?.moment) this.definitions.set(name, { moment });
    });
  }

  /**
   * A promise of `customElements.whenDefined`: its reactions come after the definition.
   * @param {string} name
   * @param {object} promise
   */
  #noteAwaited(name, promise) {
    const { recording, page: { promises } } = this;
    const moment = this.definitions.get(name)?.moment;
    if (recording.isOver) return;
    if (!moment) this.definitions.set(name, { promise });
    else if (!promises.settled.has(promise)) promises.settled.set(promise, moment);
  }

  /**
   * The browser finds functions of the recorder in place of the reactions of a definition. It looks once.
   * @param {unknown} constructor
   * @returns {(() => void)[]} what puts the page's own in their places
   */
  #watch(constructor) {
    /** @type {(() => void)[]} */
    const restores = [];
    const prototype = typeof constructor === 'function' ? getOwnPropertyDescriptor(constructor, 'prototype')?.value : null;
    if (typeof prototype !== 'object' || !prototype) return restores;
    /** @type {Former} */
    const former = { element: null, end: null };
    each(REACTIONS, (name) => {
      const describe = (/** @type {Function} */ callback) => this.#describe(name, callback, fits(IN_ORDER, name) ? former : null);
      const restore = name in prototype && this.#replaceReaction(prototype, name, (callback) => this.#wrap(callback, describe(callback)));
      if (restore) restores[restores.length] = restore;
    });
    each(OF_CODE, (name) => {
      const restore = name in prototype && this.#replaceReaction(prototype, name, (callback) => this.#wrapInside(callback));
      if (restore) restores[restores.length] = restore;
    });
    return restores;
  }

  /**
   * Puts a getter in the place of a reaction while the browser reads it: it gets a wrapped one. Returns what takes the getter away.
   * @param {object} prototype
   * @param {string} name
   * @param {(callback: Function) => Function} wrap
   * @returns {(() => void)|null} null if the page allows no other property there
   */
  #replaceReaction(prototype, name, wrap) {
    const own = getOwnPropertyDescriptor(prototype, name);
    let isReplaced = true;
    const restore = () => {
      if (isReplaced) isReplaced = own ? !Reflect.defineProperty(prototype, name, own) : !Reflect.deleteProperty(prototype, name);
    };
    const get = () => {
      restore();
      const callback = Reflect.get(prototype, name);
      return typeof callback === 'function' ? wrap(callback) : callback;
    };
    if (own && !own.configurable) return null;
    return Reflect.defineProperty(prototype, name, { configurable: true, enumerable: !!own && own.enumerable, get }) ? restore : null;
  }

  /**
   * What is known of a callback as its class is defined.
   * @param {string} name
   * @param {Function} callback
   * @param {Former|null} former
   * @returns {Reaction}
   */
  #describe(name, callback, former) {
    const moment = this.recording.moment();
    const isBefore = !!moment && (moment.event.blocks === this.page || moment.event.parsed === this.page.number);
    return { name, function: nameOfFunction(callback), moment, isBefore, former };
  }

  /**
   * The callback that the browser gets: if no code runs, the parser called it.
   * @param {Function} callback
   * @param {Reaction} reaction
   * @returns {import('../types').Method}
   */
  #wrap(callback, reaction) {
    const reactions = this;
    const { recording, page: { definitions } } = this;
    return function reacts() {
      const call = () => definitions.inside(() => apply(callback, this, arguments));
      return recording.isOver || recording.isRunning() ? call() : reactions.#run(this, reaction, call);
    };
  }

  /**
   * @param {Function} callback
   * @returns {import('../types').Method}
   */
  #wrapInside(callback) {
    const { definitions } = this.page;
    return function reacts() {
      return definitions.inside(() => apply(callback, this, arguments));
    };
  }

  // ---- reactions

  /**
   * The reaction is in a step of the parser if that comes after the definition. Otherwise a definition that came later would have called it, so it is an
   * event after both.
   * @template T
   * @param {Element} element
   * @param {Reaction} reaction
   * @param {() => T} call
   */
  #run(element, reaction, call) {
    const { recording, page } = this;
    recording.startTask();
    const step = page.tree.isParsing() ? this.#stepOf(element) : null;
    if (!step || !reaction.isBefore) return this.#runApart(element, reaction, step, call);
    recording.enter('callback');
    try {
      return call();
    } finally {
      recording.leave();
    }
  }

  /**
   * The step that made an element, if that has just been. Before the parser inserts the element it is a step of its own.
   * @param {Element} element
   */
  #stepOf(element) {
    const { recording, page } = this;
    const { lastStep, lastParsedElement } = page.tree;
    if (lastParsedElement === element && lastStep && recording.running === lastStep.event) return lastStep;
    recording.beginStepOf(page.number, { tag: element.localName });
    return recording.lastMoment();
  }

  /**
   * Runs a reaction while no code is on the stack, as the handler of a dispatch of its own.
   * @template T
   * @param {Element} element
   * @param {Reaction} reaction
   * @param {Moment|null} step
   * @param {() => T} call
   */
  #runApart(element, reaction, step, call) {
    const { page: { dispatches, elements, jobs, joins } } = this;
    const handler = joins.registerIn(reaction.moment, { type: reaction.name, function: reaction.function });
    const place = step ? elements.standInIn(step, element, 'its reaction') : jobs.place;
    const type = step ? reaction.name : `${reaction.name}-${this.recording.next('reaction')}`;
    const asked = { v: null, moment: reaction.moment, others: [this.#endBefore(element, reaction.former)], why: 'the reaction before' };
    try {
      return jobs.runAsHandler(dispatches.beginPlain(place, type), handler, asked, call);
    } finally {
      if (reaction.former) {
        reaction.former.element = element;
        reaction.former.end = this.recording.lastMoment();
      }
    }
  }

  /**
   * The end of the reaction before, if it is of this element or of one before it in the tree: an upgrade of both would call it first, too. What the parser is
   * about to insert comes last, except before a table around the other.
   * @param {Element} element
   * @param {Former|null} former
   */
  #endBefore(element, former) {
    if (!former?.element) return null;
    const { compareDocumentPosition, matches } = this.page.natives;
    const position = apply(compareDocumentPosition, former.element, [element]);
    const comesLater = (position & IS_APART) !== 0 ? !apply(matches, former.element, ['table *']) : (position & FOLLOWS) !== 0;
    return former.element === element || comesLater ? former.end : null;
  }
}

export { Reactions };
