// Writes of global variables that no mark sees: the window's own properties are compared at the end of each piece of code in which code without marks may have
// run (page/recording/unmarked.js).

import { each, findItem, hasItem, joined } from '../core/lists.js';
import { replaceMethod } from '../core/replacing.js';
import { fits } from '../core/strings.js';
import { Object, String, apply } from '../core/taken.js';
import { digestOf } from '../log/values.js';

/**
 * A descriptor as a page passes it.
 * @typedef {{enumerable?: unknown, value?: unknown}} GivenDescriptor
 */

/** One for each document: `page.unseen`. */
class Unseen {
  /** @param {import('../types').Page} page */
  constructor(page) {
    this.page = page;
    this.recording = page.recording;
    this.globals = page.globals;
    /**
     * Names of properties that an enumeration of the window does not give.
     * @type {string[]}
     */
    this.hidden = [];
  }

  /** To list all properties of a window takes long, so those that no enumeration gives are noted as they are made. */
  start() {
    const { Object: ObjectOfPage, Reflect } = this.page.window;
    const noteAll = (/** @type {object} */ target, /** @type {{[name: string]: GivenDescriptor}} */ descriptors) => {
      each(Object.keys(descriptors), (name) => this.#noteHidden(target, name, descriptors[name]));
    };
    const noteOne = (/** @type {object} */ target, /** @type {unknown} */ name, /** @type {GivenDescriptor} */ descriptor) => {
      this.#noteHidden(target, name, descriptor);
    };
    this.#replaceDefinition(ObjectOfPage, 'defineProperty', noteOne);
    this.#replaceDefinition(Reflect, 'defineProperty', noteOne);
    this.#replaceDefinition(ObjectOfPage, 'defineProperties', noteAll);
    this.#replaceWriting(ObjectOfPage, 'assign');
    this.#replaceWriting(Reflect, 'set');
  }

  /**
   * @param {object} owner
   * @param {string} name
   */
  #replaceWriting(owner, name) {
    const unseen = this;
    replaceMethod(owner, name, (native) => function write(target) {
      if (unseen.#pageOf(target)) unseen.recording.unmarked.noteInPiece();
      return apply(native, this, arguments);
    });
  }

  /**
   * Hooks `Object.defineProperty` and others like it: a comparison of keys does not find all that they define at a window.
   * @param {object} owner
   * @param {string} name
   * @param {(target: object, given: any, descriptor: any) => void} note the arguments are whatever the page passes
   */
  #replaceDefinition(owner, name, note) {
    const unseen = this;
    replaceMethod(owner, name, (native) => function define(target, given, descriptor) {
      const result = apply(native, this, [target, given, descriptor]);
      if (!unseen.#pageOf(target)) return result;
      unseen.recording.unmarked.noteInPiece();
      note(target, given, descriptor);
      return result;
    });
  }

  /** @param {object} target */
  #pageOf(target) {
    return findItem(this.recording.pages, (one) => one.window === target);
  }

  /**
   * A property that is not enumerable is not among the keys that are compared, so its name is kept.
   * @param {object} target
   * @param {unknown} name
   * @param {GivenDescriptor} descriptor
   */
  #noteHidden(target, name, descriptor) {
    const page = this.#pageOf(target);
    if (!page || descriptor.enumerable || typeof name === 'symbol') return;
    const { hidden } = page.unseen;
    if (!hasItem(hidden, String(name))) hidden[hidden.length] = String(name);
  }

  // ---- comparing

  /**
   * Records which properties of the window have changed since the last look. Called at the end of each piece of code. Called by page/page.js and
   * page/recording/recording.js.
   */
  compare() {
    this.page.clock.look();
    each(Object.keys(this.page.window), (name) => this.#compareOne(name));
    each(this.hidden, (name) => this.#compareOne(name));
  }

  /**
   * Compares one global, unless it is a getter.
   * @param {string} name
   */
  #compareOne(name) {
    const descriptor = this.#descriptorOf(name);
    if (!descriptor) return;
    this.page.ready.look(name);
    this.#compareValue(name, descriptor.value);
  }

  /**
   * The descriptor of a variable that has a value, otherwise undefined.
   * @param {string} name
   */
  #descriptorOf(name) {
    if (this.globals.builtins.has(name) || fits(/^\d+$/, name)) return undefined;
    const descriptor = this.globals.propertyOf(name);
    return descriptor && 'value' in descriptor ? descriptor : undefined;
  }

  /**
   * What a driver's own code, or code that was not seen to run, wrote between two tasks of the page is no write of the next one. The functions of a
   * script that begins are its own writes. Called by page/recording/recording.js.
   * @param {import('../scripts/scripts.js').FunctionOfScript[]} functions
   */
  takeOver(functions) {
    this.page.clock.look();
    const { values } = this.globals;
    each(joined(Object.keys(this.page.window), this.hidden), (name) => {
      const descriptor = this.#descriptorOf(name);
      if (!descriptor || Object.is(values.get(name), descriptor.value) || findItem(functions, ({ 0: declared }) => declared === name)) return;
      values.set(name, descriptor.value);
      this.recording.log.miss('variables that changed while nothing recorded ran');
    });
  }

  /**
   * Compares a global with its last known value: if it changed while code without marks could run, that code has written it.
   * @param {string} name
   * @param {unknown} value
   */
  #compareValue(name, value) {
    const { values } = this.globals;
    const isNew = !values.has(name);
    if (!isNew && Object.is(values.get(name), value)) return;
    const isDeclaredOnly = isNew && value === undefined;
    if (!isDeclaredOnly && this.recording.isRunning()) this.#writeUnseen(name, value);
    values.set(name, value);
  }

  /**
   * A write by code without marks: it has a value, and no place.
   * @param {string} name
   * @param {unknown} value
   */
  #writeUnseen(name, value) {
    const { globals } = this;
    if (globals.holder) globals.stage(name, -1);
    else this.recording.accessNow('w', globals.location(name), '', digestOf(value));
  }
}

export { Unseen };
