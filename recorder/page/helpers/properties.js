// Helpers for properties of objects by names and keys. They return the object, or the key, around which they are.

import { String, getPrototypeOf } from '../core/taken.js';
import { bitOf } from '../objects/sites.js';

/**
 * @typedef {import('../types').Modes} Modes
 * @typedef {(object: any, name: string, site: number) => any} ByName returns the object, which is whatever the page passes
 * @typedef {(object: any, key: any, site: number) => any} ByKey returns the key
 */

/**
 * Looks at an access. A look at an object of another origin fails.
 * @param {import('../types').Objects} objects
 */
function accessing({ recording, properties }) {
  /**
   * @param {object} object
   * @param {import('../types').VariableName} name
   * @param {Modes} modes
   * @param {number} site
   */
  return (object, name, modes, site) => {
    try {
      properties.access(object, name, modes, site);
    } catch {
      recording.log.miss('accesses whose objects could not be examined');
    }
  };
}

/**
 * Makes the helpers for `object.name`: one for each of the modes, as a read, a write or both.
 * @param {import('../types').Objects} objects
 * @returns {(modes: Modes) => ByName}
 */
function makerByName(objects) {
  const { sites } = objects;
  const { objects: lastObjects } = sites;
  const access = accessing(objects);
  return (modes) => (object, name, site) => {
    if (site < lastObjects.length && lastObjects[site] === object) return object;
    if (sites.isDue(object, site)) access(object, name, modes, site);
    return object;
  };
}

/**
 * The helper for a read of `object.name`. A text has what its prototype has.
 * @param {import('../types').Objects} objects
 * @returns {ByName}
 */
function readerByName(objects) {
  const { sites } = objects;
  const { objects: lastObjects } = sites;
  const access = accessing(objects);
  const { prototype } = String;
  return (object, name, site) => {
    const read = typeof object === 'string' ? prototype : object;
    if (site < lastObjects.length && lastObjects[site] === read) return object;
    if (sites.isDue(read, site)) access(read, name, 'r', site);
    return object;
  };
}

/**
 * Makes the helpers for `object[key]`, for each of the modes.
 * @param {import('../types').Objects} objects
 * @returns {(modes: Modes) => ByKey}
 */
function makerByKey(objects) {
  const { sites } = objects;
  const { objects: lastObjects, keys: lastKeys, marks } = sites;
  const access = accessing(objects);
  /** @type {(key: unknown, site: number) => boolean} */
  const hasHad = (key, site) => (typeof key === 'number' && (marks[site] & bitOf(key)) !== 0) || lastKeys[site] === key;
  /** @type {(object: unknown, key: unknown, modes: Modes, site: number) => void} */
  const accessByKey = (object, key, modes, site) => {
    if (typeof key !== 'string' && typeof key !== 'number') return;
    const items = site < lastObjects.length && lastObjects[site] === object ? marks[site] : 0;
    if (!sites.isDue(object, site)) return;
    marks[site] = items;
    access(object, key, modes, site);
    sites.noteKey(object, key, site);
  };
  return (modes) => (object, key, site) => {
    if (site < lastObjects.length && lastObjects[site] === object && hasHad(key, site)) return key;
    accessByKey(object, key, modes, site);
    return key;
  };
}

/**
 * `super.x` is a property of the prototype of the object's prototype.
 * @param {import('../types').Objects} objects
 */
function readerOfPrototype(objects) {
  const { sites, kinds } = objects;
  const { objects: lastObjects } = sites;
  const access = accessing(objects);
  /** @type {(object: unknown, name: string, site: number) => void} */
  return (object, name, site) => {
    if (lastObjects[site] === object || !sites.isDue(object, site) || kinds.isLeftOut(object)) return;
    const prototype = getPrototypeOf(object);
    if (prototype !== null && !kinds.isLeftOut(prototype)) access(prototype, name, 'r', site);
  };
}

/**
 * The object that a call by `new` has made for the function that it calls.
 * @param {import('../types').Objects} objects
 */
function noterOfMade({ recording, sites, kinds }) {
  /** @type {(object: object, site: number) => void} */
  return (object, site) => {
    if (sites.isDue(object, site)) kinds.hold(object, -1).maker = recording.actions;
  };
}

/**
 * The helpers of properties: each returns the object or the value that it got, so that the page's code goes on with it.
 * Called by helpers.js.
 * @param {import('../types').Objects} objects
 */
function helpersOfProperties(objects) {
  const byName = makerByName(objects);
  const byKey = makerByKey(objects);
  const readPrototype = readerOfPrototype(objects);
  const readByKey = byKey('r');
  const writeByName = byName('w');
  const writeByKey = byKey('w');
  return {
    p: readerByName(objects), q: writeByName, b: byName('u'), B: byName('U'), g: byName('d'),
    k: readByKey, l: writeByKey, j: byKey('u'), J: byKey('U'), h: byKey('d'),
    /** @type {ByKey} */
    o: (object, key, site) => { readByKey(object, key, site); return object; },
    /** @type {(object: unknown, name: string, site: number, value: unknown) => unknown} */
    f: (object, name, site, value) => { writeByName(object, name, site); return value; },
    /** @type {(object: unknown, key: unknown, site: number, value: unknown) => unknown} */
    fk: (object, key, site, value) => { writeByKey(object, key, site); return value; },
    N: noterOfMade(objects),
    sp: readPrototype,
    /** @type {ByKey} */
    sk: (object, key, site) => { if (typeof key === 'string' || typeof key === 'number') readPrototype(object, `${key}`, site); return key; },
  };
}

export { helpersOfProperties };
