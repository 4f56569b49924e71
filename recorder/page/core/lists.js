// What the recorder does with lists. Pages put functions of their own in the place of those that arrays have, so it uses none of them
// once the page runs. A page may override `Array.prototype.push` and others (monkey patching, polyfills).

import { Array, apply } from './taken.js';

const { shift } = Array.prototype;

/**
 * @template T
 * @param {ArrayLike<T>} list
 * @param {(item: T, index: number) => void} visit
 */
function each(list, visit) {
  for (let k = 0; k < list.length; k++) visit(list[k], k);
}

/**
 * The items that pass a test.
 * @template T
 * @param {ArrayLike<T>} list
 * @param {(item: T) => *} test
 * @returns {T[]}
 */
function keep(list, test) {
  /** @type {T[]} */
  const kept = [];
  each(list, (item) => { if (test(item)) kept[kept.length] = item; });
  return kept;
}

/**
 * The first item that passes a test.
 * @template T
 * @param {ArrayLike<T>} list
 * @param {(item: T) => *} test
 * @returns {T|undefined}
 */
function findItem(list, test) {
  for (let k = 0; k < list.length; k++) {
    if (test(list[k])) return list[k];
  }
  return undefined;
}

/**
 * How many items stand up to the last one that passes a test: 0 where none does. Called by page/events/dispatches.js.
 * @template T
 * @param {ArrayLike<T>} list
 * @param {(item: T) => *} test
 */
function heightOfLast(list, test) {
  let height = list.length;
  while (height > 0 && !test(list[height - 1])) height--;
  return height;
}

/**
 * @template T
 * @param {ArrayLike<T>} list
 * @param {T} item
 */
const hasItem = (list, item) => findItem(list, (one) => one === item) !== undefined;

/**
 * The items of two lists in a new one.
 * @template T
 * @param {ArrayLike<T>} first
 * @param {ArrayLike<T>} [second]
 * @returns {T[]}
 */
function joined(first, second = []) {
  /** @type {T[]} */
  const list = [];
  for (let k = 0; k < first.length; k++) list[k] = first[k];
  for (let k = 0; k < second.length; k++) list[list.length] = second[k];
  return list;
}

/**
 * What a function makes of each item.
 * @template T, U
 * @param {ArrayLike<T>} list
 * @param {(item: T) => U} make
 * @returns {U[]}
 */
function mapped(list, make) {
  /** @type {U[]} */
  const made = [];
  each(list, (item) => { made[made.length] = make(item); });
  return made;
}

/**
 * The values of a map or a set, in a list.
 * @template T
 * @param {{forEach: (visit: (value: T) => void) => void}} collection of taken.js, whose methods nobody can replace
 * @returns {T[]}
 */
function valuesOf(collection) {
  /** @type {T[]} */
  const list = [];
  collection.forEach((value) => { list[list.length] = value; });
  return list;
}

/**
 * The keys of a map, in a list.
 * @template K
 * @param {{forEach: (visit: (value: any, key: K) => void) => void}} collection a map of taken.js, with any values
 * @returns {K[]}
 */
function keysOf(collection) {
  /** @type {K[]} */
  const list = [];
  collection.forEach((value, key) => { list[list.length] = key; });
  return list;
}

/**
 * Removes the first item, and gives it.
 * @template T
 * @param {T[]} list
 * @returns {T|undefined}
 */
const takeFirst = (list) => apply(shift, list, []);

/**
 * The index of an item in a list, or -1.
 * @template T
 * @param {ArrayLike<T>} list
 * @param {T} item
 * @returns {number} -1 if it is not there
 */
function positionOf(list, item) {
  for (let k = 0; k < list.length; k++) if (list[k] === item) return k;
  return -1;
}

export { joined, keysOf, mapped, positionOf, takeFirst, valuesOf, each, keep, findItem, heightOfLast, hasItem };
