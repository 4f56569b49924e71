// What kind of thing an object is, without a call of the page's code: by the known prototypes of the browser, and proxies by their making.

import { replaceMethod, replacedFunctions } from '../core/replacing.js';
import { sliceOf } from '../core/strings.js';
import { Object, Symbol, WeakMap, apply, construct, functionText, getOwnPropertyDescriptor, getPrototypeOf, isArray, isView } from '../core/taken.js';
import { BUILTIN, BYTES, Holder, LEFT_OUT, LIST, MAP, PLAIN, SET, STORAGE, TREE } from './holders.js';

const LONGEST_PROTOTYPE_CHAIN = 12;
const NATIVE_TEXT = ' [native code] }';

/** A prototype of the browser, and what kind of things it makes. */
class Builtin extends Holder {
  /**
   * @param {object} prototype
   * @param {number} makes
   */
  constructor(prototype, makes) {
    super(BUILTIN, -1, prototype);
    this.makes = makes;
  }
}

/** One for each recording: `recording.objects.kinds`. */
class Kinds {
  /** @param {import('../types').Objects} objects */
  constructor(objects) {
    this.objects = objects;
    this.recording = objects.recording;
    /** @type {WeakMap<object, Holder>} */
    this.holders = new WeakMap();
  }

  // ---- what is known before the page runs

  /**
   * The browser's own prototypes are known as they are met; those that show the kind of an object are known before. Called by objects.js.
   * @param {import('../types').Page} page
   */
  addWindow({ window }) {
    this.#addBuiltin(window.Object.prototype, PLAIN);
    this.#addBuiltin(window.Function.prototype, PLAIN);
    this.#addBuiltin(window.Array.prototype, PLAIN);
    this.#addBuiltin(window.String.prototype, PLAIN);
    this.#addBuiltin(window.Node.prototype, TREE);
    this.#addBuiltin(window.Map.prototype, MAP);
    this.#addBuiltin(window.Set.prototype, SET);
    this.#addBuiltin(window.Storage.prototype, STORAGE);
    this.#watchProxies(window);
  }

  /**
   * @param {object} prototype
   * @param {number} makes
   */
  #addBuiltin(prototype, makes) {
    const holder = new Builtin(prototype, makes);
    this.holders.set(prototype, holder);
    return holder;
  }

  /**
   * A look at a proxy would run the page's code, so each is known from its making on.
   * @param {import('../types').PageWindow} window
   */
  #watchProxies(window) {
    const { holders } = this;
    const proxy = new Holder(LEFT_OUT, 0, null);
    const Native = window.Proxy;
    /** @param {object} made */
    const note = (made) => { holders.set(made, proxy); return made; };
    const { revocable } = Native;
    const Replacement = new Native(Native, {
      construct: (target, args, newTarget) => note(construct(target, args, newTarget)),
    });
    replaceMethod(Native, 'revocable', () => function revocableProxy() {
      const made = apply(revocable, this, arguments);
      note(made.proxy);
      return made;
    });
    replacedFunctions.set(Replacement, Native);
    Object.defineProperty(window, 'Proxy', { configurable: true, writable: true, enumerable: false, value: Replacement });
  }

  // ---- objects

  /**
   * A prototype is the browser's if its constructor is (prototypes.js). Called by properties.js and prototypes.js.
   * @param {object} object
   * @returns {Holder}
   */
  holdPrototype(object) {
    const known = this.holders.get(object);
    if (known !== undefined) return known;
    return this.#isOfBrowser(object) ? this.#addPrototype(object) : this.hold(object, -1);
  }

  /** @param {object} object */
  #addPrototype(object) {
    const up = getPrototypeOf(object);
    return this.#addBuiltin(object, up === null ? PLAIN : madeBy(this.holdPrototype(up)));
  }

  /** @param {object} object */
  #isOfBrowser(object) {
    const maker = getOwnPropertyDescriptor(object, 'constructor');
    return maker ? typeof maker.value === 'function' && this.#isNative(maker.value) : isIterator(object);
  }

  /**
   * The holder of a prototype of the browser that code touches itself; undefined if it is none. Called by properties.js.
   * @param {object} object that has a constructor
   */
  meetPrototype(object) {
    const maker = getOwnPropertyDescriptor(object, 'constructor')?.value;
    if (typeof maker !== 'function' || !this.#isNative(maker)) return undefined;
    return getOwnPropertyDescriptor(maker, 'prototype')?.value === object ? this.holdPrototype(object) : undefined;
  }

  /** @param {Function} maker */
  #isNative(maker) {
    const holder = this.holders.get(maker);
    if (holder !== undefined && holder.kind === LEFT_OUT) return false;
    return replacedFunctions.has(maker) || sliceOf(apply(functionText, maker, []), -NATIVE_TEXT.length) === NATIVE_TEXT;
  }

  /**
   * The kind of an object that is not held yet (holders.js). Called by collections.js and properties.js.
   * @param {object} object
   * @returns {number}
   */
  kindOf(object) {
    if (typeof object === 'function') return PLAIN;
    if (isArray(object)) return LIST;
    if (isView(object)) return BYTES;
    let at = getPrototypeOf(object);
    for (let depth = 0; at !== null && depth < LONGEST_PROTOTYPE_CHAIN; depth++) {
      const holder = this.holdPrototype(at);
      if (holder.kind === LEFT_OUT) return PLAIN; // a proxy is asked nothing
      if (holder.kind === BUILTIN) return this.#isMade(object, madeBy(holder)) ? madeBy(holder) : this.#kindOfUnmade(object);
      at = getPrototypeOf(at);
    }
    return PLAIN;
  }

  /**
   * The kind of an object that only inherits what elements or storages have. A prototype of the browser that code meets before what it makes, such as
   * `HTMLMediaElement.prototype`, is no plain object, else these would be.
   * @param {object} object
   * @returns {number}
   */
  #kindOfUnmade(object) {
    return this.#isOfBrowser(object) ? this.#addPrototype(object).kind : PLAIN;
  }

  /**
   * Whether an object is of the kind that its prototype makes: code can make others with this prototype.
   * @param {object} object
   * @param {number} kind
   */
  #isMade(object, kind) {
    if (kind === TREE) return this.objects.trees.isNode(object);
    return kind !== STORAGE || this.objects.properties.fieldsOf(object) !== undefined;
  }

  /**
   * The holder of an object.
   * @param {object} object
   * @param {number} site where it is met
   */
  hold(object, site) {
    let holder = this.holders.get(object);
    if (holder === undefined) {
      const kind = this.kindOf(object);
      if (kind === BUILTIN) return /** @type {Holder} */ (this.holders.get(object));
      holder = new Holder(kind, site, object);
      holder.since = this.recording.actions;
      if (holder.kind === TREE) holder.maker = this.objects.madeElements.makerOf(object);
      this.holders.set(object, holder);
    } else if (holder.site < 0 && site >= 0) this.noteSite(holder, site);
    return holder;
  }

  /**
   * An object is known by where code first met it: it might have been met before without a place. Called by properties.js.
   * @param {Holder} holder
   * @param {number} site
   */
  noteSite(holder, site) {
    holder.site = site;
    if (holder.number && holder.kind !== TREE) this.objects.objectNames.write(holder);
  }

  /**
   * Whether it is a proxy, or a prototype of the browser.
   * @param {object} object
   */
  isLeftOut(object) {
    const holder = this.holders.get(object);
    return holder !== undefined && holder.kind >= LEFT_OUT;
  }
}

/**
 * What a prototype makes, as far as it is one of the browser.
 * @param {Holder} holder
 */
const madeBy = (holder) => (holder.kind === BUILTIN ? /** @type {Builtin} */ (holder).makes : PLAIN);

/**
 * The browser's iterators have no constructor.
 * @param {object} object
 */
function isIterator(object) {
  return getOwnPropertyDescriptor(object, Symbol.toStringTag) !== undefined && getOwnPropertyDescriptor(object, 'next') !== undefined;
}

/**
 * Whether a property is a getter or a setter: what its code touches is written instead. Called by properties.js, trees.js and waiting.js.
 * @param {object} object
 * @param {import('../types').VariableName} name
 */
function isAccessor(object, name) {
  const found = getOwnPropertyDescriptor(object, name);
  return found !== undefined && !('value' in found);
}

export { LONGEST_PROTOTYPE_CHAIN, Kinds, isAccessor };
