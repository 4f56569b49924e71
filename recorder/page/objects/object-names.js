// What the log says of an object: its number, what made it, and whether a variable of it is the code's own or the page's.

import { settings } from '../core/settings.js';
import { sliceOf } from '../core/strings.js';
import { String, WeakMap, getOwnPropertyDescriptor, getPrototypeOf } from '../core/taken.js';
import { isThing } from '../core/things.js';
import { BUILTIN, IS_OF_TREE, LEFT_OUT, LIST, SCOPE, TREE, WINDOW } from './holders.js';

/** The object of an element has the same number as its field. */
const { FIRST_FIELD, FIRST_OBJECT } = settings.numbers;
/** Characters of a name that the page gave (`displayName`, a key): it is shown to a reader. */
const LONGEST_TOLD = 80;

/** One for each recording: `recording.objects.objectNames`. */
class ObjectNames {
  /** @param {import('../types').Objects} objects */
  constructor(objects) {
    this.objects = objects;
    this.recording = objects.recording;
    this.kinds = objects.kinds;
    this.numbers = FIRST_OBJECT;
    /**
     * The numbers of objects that are keys of maps.
     * @type {WeakMap<object, number>}
     */
    this.keys = new WeakMap();
  }

  /**
   * The number in locations; if it is new, the log says what has it. Called by waiting.js.
   * @param {import('../types').Holder} holder
   * @returns {number}
   */
  numberOf(holder) {
    if (holder.kind === WINDOW) return holder.object.globals.number;
    if (holder.number) return holder.number;
    if (holder.kind === TREE) {
      holder.number = FIRST_FIELD + this.objects.trees.number(holder.object);
    } else {
      holder.number = this.numbers++;
      this.write(holder);
    }
    return holder.number;
  }

  /**
   * Writes what OUT.names.json has of an object that has a number. Called by kinds.js.
   * @param {import('../types').Holder} holder
   */
  write(holder) {
    this.recording.log.name('object', holder.number, this.#facts(holder));
  }

  /**
   * Variables that only libraries touch are left out of objects that code made, and not of windows and the page's tree. Called by waiting.js.
   * @param {import('../types').Holder} holder
   * @param {import('../types').Variable} variable
   */
  attributesOf({ kind }, { flags }) {
    return kind === WINDOW || (kind === TREE && (flags & IS_OF_TREE) !== 0) ? '' : ' own';
  }

  /**
   * Nothing here is allowed to run the page's code.
   * @param {import('../types').Holder} holder
   * @returns {import('../types').Facts}
   */
  #facts({ kind, site, object }) {
    if (kind === SCOPE) return { site };
    if (kind === LIST) return { site, made: 'array' };
    if (kind === BUILTIN) return { made: 'prototype', name: this.#nameOfPrototype(object) };
    if (typeof object === 'function') return { site, made: 'function', name: this.#ownText(object, 'name') };
    const name = this.#nameOfMaker(object);
    return { site, made: name && name !== 'Object' ? name : 'object' };
  }

  /**
   * The name of the class or the constructor that made an object.
   * @param {object} object
   */
  #nameOfMaker(object) {
    const prototype = getPrototypeOf(object);
    if (prototype === null || this.kinds.holders.get(prototype)?.kind === LEFT_OUT) return undefined;
    const maker = getOwnPropertyDescriptor(prototype, 'constructor');
    return maker && typeof maker.value === 'function' ? this.#ownText(maker.value, 'name') : undefined;
  }

  /**
   * The name of the interface whose prototype an object of the browser is.
   * @param {object} prototype
   */
  #nameOfPrototype(prototype) {
    const maker = getOwnPropertyDescriptor(prototype, 'constructor');
    return maker && typeof maker.value === 'function' ? this.#ownText(maker.value, 'name') : undefined;
  }

  /**
   * A text that an object has itself at a name, without calling a getter or a proxy of the page.
   * @param {object} object
   * @param {string} name
   */
  #ownText(object, name) {
    if (this.kinds.isLeftOut(object)) return undefined;
    const found = getOwnPropertyDescriptor(object, name);
    return found && typeof found.value === 'string' && found.value ? sliceOf(found.value, 0, LONGEST_TOLD) : undefined;
  }

  /**
   * A key of a map as a name. An object is known by its number; a symbol has none. Called by collections.js.
   * @param {unknown} key
   */
  ofKey(key) {
    if (isThing(key)) return this.kinds.isLeftOut(key) ? null : `[object ${this.#keyNumber(key)}]`;
    if (typeof key === 'symbol') return null;
    return typeof key === 'string' ? `[${sliceOf(key, 0, LONGEST_TOLD)}]` : `[${String(key)}]`;
  }

  /**
   * The number of an object that is a key of a map.
   * @param {object} key
   */
  #keyNumber(key) {
    let number = this.keys.get(key);
    if (number === undefined) this.keys.set(key, number = this.recording.next('key'));
    return number;
  }
}

export { ObjectNames };
