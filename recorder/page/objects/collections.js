// Arrays, maps and sets: what their items, keys and methods touch; and whole objects, as a spread reads them. `push`, `splice`, `sort`, `length`, `Map.get`,
// `Set.add`: which keys and items each of these methods reads or writes. An index (`a[3]`) is a property: properties.js.

import { Array, Map, Object, Set, apply, getPrototypeOf, hasOwn } from '../core/taken.js';
import { isThing } from '../core/things.js';
import { CLASSES, ITEMS, LEFT_OUT, LIST, MAP, NAMES, OTHER_ITEMS, PLAIN, READ, SET, SINGLE_ITEMS, STORAGE, STYLE, TREE, WRITE } from './holders.js';

const mapHas = Map.prototype.has;
const setHas = Set.prototype.has;
/** The spread of an object reads at most this many of its properties one by one. */
const MOST_SPREAD = 64;
const CHANGES_ALL = new Set(['pop', 'shift', 'unshift', 'splice', 'sort', 'reverse', 'fill', 'copyWithin']);
const READS_KEY = new Set(['get', 'has']);
const READS_MAP = new Set(['forEach', 'keys', 'values', 'entries']);

/** One for each recording: `recording.objects.collections`. */
class Collections {
  /** @param {import('../types').Objects} objects */
  constructor(objects) {
    this.objects = objects;
    this.kinds = objects.kinds;
    this.variables = objects.variables;
    this.objectNames = objects.objectNames;
  }

  /**
   * A method that might be one of an array, a map or an element. Called by page/helpers/wholes.js.
   * @param {object} object
   * @param {string} name
   * @param {number} site
   */
  call(object, name, site) {
    const { kinds, objects } = this;
    const known = kinds.holders.get(object);
    if (known !== undefined && known.kind >= LEFT_OUT) return;
    if (objects.prototypes.names.has(name) && !hasOwn(object, name)) objects.prototypes.read(getPrototypeOf(object), name, site);
    switch (known === undefined ? kinds.kindOf(object) : known.kind) {
      case LIST: this.#callList(kinds.hold(object, site), name, site); break;
      case MAP: case SET: this.#callMap(kinds.hold(object, site), name, site); break;
      case TREE: objects.trees.call(kinds.hold(object, site), name, site); break;
      case CLASSES: if (known !== undefined) objects.trees.accessPart(known, object, name, 'r', site); break;
      case PLAIN: objects.properties.read(object, name, site); break;
      default:
    }
  }

  /**
   * The first argument of a method, which is a key. Called by page/helpers/wholes.js.
   * @param {object} object
   * @param {unknown} key
   * @param {number} site
   * @param {string} method
   */
  accessKey(object, key, site, method) {
    const holder = this.kinds.holders.get(object);
    if (holder === undefined) return;
    if (holder.kind === TREE) this.objects.trees.accessAttribute(holder, key, method, site);
    else if (holder.kind === STYLE) this.objects.trees.accessStyle(holder, key, method, site);
    else if ((holder.kind === MAP || holder.kind === SET) && !hasOwn(object, method)) this.#accessMapKey(holder, key, site, method);
  }

  // ---- arrays

  /**
   * `(items)` is which items an array has: a change of the array as a whole writes it, and every other access reads it. So an item that is put
   * into its place and one in another place do not touch the same variable. Called by properties.js.
   * @param {import('../types').Holder} holder
   * @param {import('../types').VariableName} name
   * @param {import('../types').Modes} modes
   * @param {number} site
   */
  accessItem(holder, name, modes, site) {
    const { object } = holder;
    if (typeof name === 'number' && name >= 0) {
      const isFurther = modes !== 'r' && name >= object.length;
      this.variables.touchName(holder, ITEMS, isFurther ? WRITE : READ, site);
      this.variables.touchModes(holder, name < SINGLE_ITEMS ? name : OTHER_ITEMS, modes, site);
    } else if (name === 'length') this.variables.touchModes(holder, ITEMS, modes, site);
    else if (hasOwn(object, name) || modes !== 'r') this.variables.touchModes(holder, name, modes, site);
    else if (typeof name === 'string') this.objects.prototypes.read(getPrototypeOf(object), name, site);
  }

  /**
   * A method of an array was called: `push` writes its items without reading them; those that move items read and write all; others read all. A method of its
   * own is only read.
   * @param {import('../types').Holder} holder
   * @param {string} name
   * @param {number} site
   */
  #callList(holder, name, site) {
    if (hasOwn(holder.object, name)) this.variables.touchName(holder, name, READ, site);
    else if (name === 'push') this.variables.touchName(holder, ITEMS, WRITE, site);
    else if (CHANGES_ALL.has(name)) {
      this.#readItems(holder, site);
      this.variables.touchName(holder, ITEMS, WRITE, site);
    } else if (name in Array.prototype) this.#readItems(holder, site);
  }

  /**
   * All items of an array are read: the variable of all, and each that was touched by its index.
   * @param {import('../types').Holder} holder
   * @param {number} site
   */
  #readItems(holder, site) {
    this.variables.touchName(holder, ITEMS, READ, site);
    for (let one = holder.first; one !== null; one = one.next) {
      if (typeof one.name === 'number' || one.name === OTHER_ITEMS) this.variables.touch(holder, one, READ, site);
    }
  }

  // ---- maps and sets

  /**
   * A method of a map or a set was called: which keys it reads or writes. A method of its own is none of these.
   * @param {import('../types').Holder} holder
   * @param {string} name
   * @param {number} site
   */
  #callMap(holder, name, site) {
    if (hasOwn(holder.object, name)) return;
    if (name === 'clear') {
      this.variables.touchName(holder, NAMES, WRITE, site);
      for (let one = holder.first; one !== null; one = one.next) this.variables.touch(holder, one, WRITE, site);
    } else if (READS_MAP.has(name)) this.#readMap(holder, site);
  }

  /**
   * Reads all keys of a map or a set.
   * @param {import('../types').Holder} holder
   * @param {number} site
   */
  #readMap(holder, site) {
    this.variables.touchName(holder, NAMES, READ, site);
    let left = MOST_SPREAD;
    for (let one = holder.first; one !== null && left > 0; one = one.next, left--) this.variables.touch(holder, one, READ, site);
  }

  /**
   * Records what a method of a map or a set does with one key: `get` and `has` read it, the others write it if they change something.
   * @param {import('../types').Holder} holder
   * @param {unknown} key
   * @param {number} site
   * @param {string} method
   */
  #accessMapKey(holder, key, site, method) {
    const name = this.objectNames.ofKey(key);
    if (name === null) return;
    if (READS_KEY.has(method)) {
      this.variables.touchName(holder, name, READ, site);
      return;
    }
    const isNew = method !== 'delete' && !apply(holder.kind === MAP ? mapHas : setHas, holder.object, [key]);
    if (isNew || method !== 'add') this.variables.touchName(holder, name, WRITE, site);
    if (isNew || method === 'delete') this.variables.touchName(holder, NAMES, WRITE, site);
  }

  // ---- wholes

  /**
   * Code asks for the names or items of an object: `for..in`, `Object.keys`. Called by page/helpers/wholes.js.
   * @param {object} object
   * @param {number} site
   */
  enumerate(object, site) {
    const holder = this.kinds.hold(object, site);
    if (holder.kind === LIST) this.#readItems(holder, site);
    else if (holder.kind === PLAIN) this.variables.touchName(holder, NAMES, READ, site);
    else if (holder.kind === STORAGE) this.#readEach(object, site);
  }

  /**
   * Code goes through an object: `for..of`, a spread into a list, a pattern of items. Called by page/helpers/wholes.js and patterns.js.
   * @param {object} object
   * @param {number} site
   */
  iterate(object, site) {
    const holder = this.kinds.hold(object, site);
    if (holder.kind === LIST) this.#readItems(holder, site);
    else if (holder.kind === MAP || holder.kind === SET) this.#readMap(holder, site);
  }

  /**
   * Code reads all properties of an object: `{...a}`, `Object.assign`. Called by page/helpers/wholes.js and patterns.js.
   * @param {object} object
   * @param {number} site
   */
  spread(object, site) {
    const holder = this.kinds.hold(object, site);
    if (holder.kind === LIST) this.#readItems(holder, site);
    else if (holder.kind === STORAGE) this.#readEach(object, site);
    if (holder.kind !== PLAIN) return;
    this.variables.touchName(holder, NAMES, READ, site);
    this.#eachName(object, (name) => this.objects.properties.read(object, name, site));
  }

  /**
   * Reads the items of a storage that are there: which others could be there is no variable.
   * @param {object} object
   * @param {number} site
   */
  #readEach(object, site) {
    this.#eachName(object, (name) => this.objects.properties.access(object, name, 'r', site));
  }

  /**
   * `Object.assign`: what is read of one object is written to another one. Called by page/helpers/wholes.js.
   * @param {unknown} target
   * @param {object} object
   * @param {number} site
   */
  assign(target, object, site) {
    this.spread(object, site);
    this.define(target, object, site);
  }

  /**
   * Properties get the names of those that another object has. Called by page/helpers/wholes.js.
   * @param {unknown} target
   * @param {object} object
   * @param {number} site
   */
  define(target, object, site) {
    if (isThing(target)) this.#eachName(object, (name) => this.objects.properties.access(target, name, 'w', site));
  }

  /**
   * The names of an object, at most MOST_SPREAD of them.
   * @param {object} object
   * @param {(name: string) => void} visit
   */
  #eachName(object, visit) {
    const names = Object.keys(object);
    for (let k = 0; k < names.length && k < MOST_SPREAD; k++) visit(names[k]);
  }
}

export { MOST_SPREAD, Collections };
