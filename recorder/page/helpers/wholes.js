// Helpers for whole objects, for methods with their first arguments, and for first values. Used by helpers.js.

/** @typedef {(object: any, site: number, shape?: any) => any} OfWhole returns the object, which is whatever the page passes */

/**
 * Calls a function that looks at an object. A look at an object of another origin fails.
 * @param {import('../types').Objects} objects
 */
function looking({ recording }) {
  /** @param {() => void} visit */
  return (visit) => {
    try {
      visit();
    } catch {
      recording.log.miss('accesses whose objects could not be examined');
    }
  };
}

/**
 * Code that reads an object as a whole, or takes it apart.
 * @param {import('../types').Objects} objects
 */
function helpersOfWholes(objects) {
  const { sites, kinds, collections, patterns } = objects;
  const { objects: lastObjects } = sites;
  const look = looking(objects);
  /** @type {(visit: (object: object, site: number, shape: any) => void) => OfWhole} */
  const whole = (visit) => (object, site, shape) => {
    if (site < lastObjects.length && lastObjects[site] === object) return object;
    if (sites.isDue(object, site) && !kinds.isLeftOut(object)) look(() => visit(object, site, shape));
    return object;
  };
  return {
    n: whole((object, site) => collections.enumerate(object, site)),
    e: whole((object, site) => collections.spread(object, site)),
    i: whole((object, site, shape) => (shape === undefined ? collections.iterate(object, site) : patterns.takeEach(object, site, patterns.shapeOf(shape)))),
    d: whole((object, site, shape) => patterns.takeApart(object, site, patterns.shapeOf(shape))),
  };
}

/**
 * `Object.assign` and `Object.defineProperties`: what is read of one object is written to another one, which is kept for the next mark.
 * @param {import('../types').Objects} objects
 */
function helpersOfCopies(objects) {
  const { sites, kinds, collections } = objects;
  const look = looking(objects);
  /** @typedef {{t: unknown}} Helpers */
  return {
    /** @type {(this: Helpers, target: unknown, object: unknown, site: number) => unknown} */
    c(target, object, site) {
      if (sites.isDue(object, site) && !kinds.isLeftOut(object)) look(() => collections.assign(target, object, site));
      this.t = target;
      return object;
    },
    /** @type {(target: unknown, object: unknown, site: number) => unknown} */
    D: (target, object, site) => {
      if (sites.isDue(object, site) && !kinds.isLeftOut(object)) look(() => collections.define(target, object, site));
      return object;
    },
  };
}

/**
 * Methods of arrays, maps and elements, and their first arguments.
 * @param {import('../types').Objects} objects
 */
function helpersOfCalls(objects) {
  const { sites, collections } = objects;
  const { objects: lastObjects, keys: lastKeys } = sites;
  const look = looking(objects);
  return {
    /** @type {(object: unknown, name: string, site: number) => unknown} */
    m: (object, name, site) => {
      if ((site >= lastObjects.length || lastObjects[site] !== object) && sites.isDue(object, site)) look(() => collections.call(object, name, site));
      return object;
    },
    /** @type {(object: unknown, key: unknown, site: number, method: string) => unknown} */
    a: (object, key, site, method) => {
      if (site < lastObjects.length && lastObjects[site] === object && lastKeys[site] === key) return key;
      if (!sites.isDue(object, site)) return key;
      lastKeys[site] = key;
      look(() => collections.accessKey(object, key, site, method));
      return key;
    },
  };
}

/**
 * A whole recording (`--keep`) has first values too: the properties in a literal, and the first value of a variable of a scope.
 * @param {import('../types').Objects} objects
 */
function helpersOfFirsts({ recording, kinds, scopes, variables }) {
  return {
    /** @type {(object: object, site: number) => object} */
    L: (object, site) => {
      if (recording.mayAccess()) variables.waiting.keepFirsts(kinds.hold(object, -1), site);
      return object;
    },
    /** @type {(scope: unknown, name: string, site: number, value: unknown) => unknown} */
    F: (scope, name, site, value) => {
      if (recording.mayAccess()) scopes.keepFirst(scope, name, site);
      return value;
    },
  };
}

export { helpersOfWholes, helpersOfCopies, helpersOfCalls, helpersOfFirsts };
