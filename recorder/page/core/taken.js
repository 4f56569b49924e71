// What the recorder uses of the window, taken before any script of the page: pages freeze, wrap and replace it. A module takes from here what it
// uses of JavaScript's own names, and from natives.js what it uses of the browser.

/* global window */

/**
 * The functions of an object, as `Object.keys`, apart from it.
 * @template T
 * @param {T} owner
 * @returns {T}
 */
function takeStatics(owner) {
  const { getOwnPropertyDescriptor: look, getOwnPropertyNames: namesOf } = window.Object;
  /** @type {any} an owner, as it gets its members one by one */
  const taken = { __proto__: null };
  for (const name of namesOf(owner)) {
    const found = look(owner, name);
    if (found && 'value' in found) taken[name] = found.value;
  }
  return taken;
}

/**
 * A class of maps or sets that has its methods by itself; nobody can replace them.
 * @template {new (...args: any[]) => any} T any class: a mixin must have this type
 * @param {T} Native
 * @returns {T}
 */
function takeClass(Native) {
  const { getOwnPropertyDescriptor: look, defineProperty, freeze } = window.Object;
  /** @type {any} the class, whose prototype gets its members by their names */
  const Taken = class extends Native {};
  for (const name of window.Reflect.ownKeys(Native.prototype)) {
    const found = look(Native.prototype, name);
    if (found && name !== 'constructor') defineProperty(Taken.prototype, name, found);
  }
  freeze(Taken.prototype);
  freeze(Taken);
  return Taken;
}

const { Array, BigInt, Boolean, Error, Number, String, Symbol, TextEncoder, Uint8Array, Uint32Array, decodeURIComponent, encodeURIComponent } = window;
const JSON = takeStatics(window.JSON);
const Math = takeStatics(window.Math);
const Object = takeStatics(window.Object);
const Reflect = takeStatics(window.Reflect);
const Map = takeClass(window.Map);
const Set = takeClass(window.Set);
const WeakMap = takeClass(window.WeakMap);
const WeakSet = takeClass(window.WeakSet);

const { apply, construct } = Reflect;
const { getOwnPropertyDescriptor, getPrototypeOf, hasOwn } = Object;
const { isArray } = Array;
const { isView } = window.ArrayBuffer;
const functionText = window.Function.prototype.toString;

export {
  Array, BigInt, Boolean, Error, Number, String, Symbol, TextEncoder, Uint8Array, Uint32Array, decodeURIComponent, encodeURIComponent,
  JSON, Math, Object, Reflect, Map, Set, WeakMap, WeakSet,
  apply, construct, getOwnPropertyDescriptor, getPrototypeOf, hasOwn, isArray, isView, functionText,
};
