// Functions, constructors and properties of the recorder in place of the browser's; the page finds their names and texts as before. A hook is a wrapper (monkey
// patch) around a method, a getter, a setter or a constructor.

import { each } from './lists.js';
import { Object, Reflect, WeakMap, apply } from './taken.js';

/**
 * Puts a function in place of another one.
 * @param {object} owner
 * @param {string} name
 * @param {(native: import('../types').Method) => import('../types').Method} make
 */
function replaceMethod(owner, name, make) {
  const descriptor = Object.getOwnPropertyDescriptor(owner, name);
  if (!descriptor || typeof descriptor.value !== 'function') return;
  const native = descriptor.value;
  const replacement = make(native);
  showAs(replacement, native);
  Object.defineProperty(owner, name, { ...descriptor, value: replacement });
}

/**
 * The page finds the name, the length and the text of the function in whose place another one is. Called by page/scripts/ready.js.
 * @param {Function} replacement
 * @param {Function} native
 */
function showAs(replacement, native) {
  each(['name', 'length'], (key) => {
    const found = Object.getOwnPropertyDescriptor(native, key);
    if (found) Object.defineProperty(replacement, key, found);
  });
  replacedFunctions.set(replacement, replacedFunctions.get(native) || native);
}

/**
 * Puts a constructor in place of another one; `note` is called with each object that is made. Called by page/document/made.js, page/events/messages.js and
 * page/tasks/connections.js.
 * @param {import('../types').PageWindow} window
 * @param {string} name
 * @param {(made: any, args: any[]) => void} note the object is of the browser, the arguments are whatever the page passes
 */
function replaceConstructor(window, name, note) {
  const Native = window[name];
  if (!Native) return;
  /**
   * @this {unknown}
   * @param {unknown[]} args
   */
  function Replacement(...args) {
    if (!new.target) return apply(Native, this, args); // it throws
    const made = Reflect.construct(Native, args, new.target !== Replacement ? new.target : Native);
    note(made, args);
    return made;
  }
  putConstructor(window, name, Replacement);
}

/**
 * The page finds a constructor of the recorder in the place of the browser's, as it would find that: its name, its text and its objects. Called by chance.js,
 * page/events/messages.js and page/tasks/observers.js.
 * @param {import('../types').PageWindow} window
 * @param {string} name
 * @param {Function} Replacement
 */
function putConstructor(window, name, Replacement) {
  const Native = window[name];
  Object.defineProperty(Replacement, 'prototype', { value: Native.prototype, writable: false });
  Object.setPrototypeOf(Replacement, Native);
  Object.defineProperty(Replacement, 'name', { value: name, configurable: true });
  Object.defineProperty(Replacement, 'length', { value: Native.length, configurable: true });
  replacedFunctions.set(Replacement, Native);
  const isOwn = Native.prototype.constructor === Native; // that of `Image` is the interface of its elements
  if (isOwn) Object.defineProperty(Native.prototype, 'constructor', { configurable: true, writable: true, value: Replacement });
  Object.defineProperty(window, name, { configurable: true, writable: true, value: Replacement });
}

/**
 * Puts a getter and a setter in place of those of a property.
 * @param {object} owner
 * @param {string} name
 * @param {(native: import('../types').Accessors) => Partial<import('../types').Accessors>} make
 */
function replaceProperty(owner, name, make) {
  const descriptor = Object.getOwnPropertyDescriptor(owner, name);
  if (!descriptor || !descriptor.set || !descriptor.configurable) return;
  const { get = descriptor.get, set = descriptor.set } = make(/** @type {import('../types').Accessors} */ (descriptor));
  Object.defineProperty(owner, name, { get, set, enumerable: descriptor.enumerable, configurable: true });
}

/**
 * Puts a getter in the place of that of a property. Called by page/accesses/fields.js, page/document/attributes.js and page/tasks/callbacks.js.
 * @param {object} owner
 * @param {string} name
 * @param {(native: import('../types').Method) => import('../types').Method} make
 */
function replaceGetter(owner, name, make) {
  const descriptor = Object.getOwnPropertyDescriptor(owner, name);
  if (!descriptor || !descriptor.get || !descriptor.configurable) return;
  const get = make(descriptor.get);
  Object.defineProperty(get, 'name', { value: `get ${name}`, configurable: true });
  replacedFunctions.set(get, descriptor.get);
  Object.defineProperty(owner, name, { ...descriptor, get });
}

/**
 * What `toString` of a replaced function shows.
 * @type {WeakMap<Function, Function>}
 */
const replacedFunctions = new WeakMap();

export { replaceMethod, showAs, replaceConstructor, putConstructor, replaceProperty, replaceGetter, replacedFunctions };
