// What has variables: objects, the scopes of closures, windows, elements; and what is known of each variable. A WeakMap in kinds.js leads from an object to
// them, which keeps no object in memory.

import { Map } from '../core/taken.js';
import { UNKNOWN } from '../log/values.js';

/** Of more variables an object has a map: a short list is faster to search. */
const MOST_IN_LIST = 8;

const READ = 0;
const WRITE = 1;
/** A write after which the variable has its old value: it is written as a read. */
const KEPT = 2;
/** A write that counts up or down, and whose value nobody uses. */
const COUNTED = 3;
/**
 * Called by waiting.js.
 * @param {number} mode
 */
const isWrite = (mode) => (mode & 1) !== 0;

/** What kind of thing has variables. From LEFT_OUT on nothing is recorded of it. */
const PLAIN = 0;
const LIST = 1;
const BYTES = 2;
const MAP = 3;
const TREE = 4;
const STYLE = 5;
const CLASSES = 6;
const DATA = 7;
const SCOPE = 8;
const WINDOW = 9;
const SET = 10;
const STORAGE = 11;
const LEFT_OUT = 12;
const BUILTIN = 13;

/** Variables of more than one name: all bytes, which names or keys there are, which items an array has. */
const WHOLE = '(all)';
const NAMES = '(names)';
const ITEMS = '(items)';
/** Elements of an array from this index on are one variable. */
const SINGLE_ITEMS = 8;
const OTHER_ITEMS = `${SINGLE_ITEMS}..`;

/** What is known of a variable, as bits. A getter or a setter is left out: what its code touches is written instead. */
const IS_SHARED = 1;
const IS_WRITTEN = 2;
const IS_READ = 4;
const MAY_RACE = 8;
const IS_LEFT_OUT = 16;
/** Its last action counted it up or down, and did nothing else with it. */
const IS_COUNTED = 32;
/** It is an attribute, the content or a style of an element, and no property that scripts put there. */
const IS_OF_TREE = 64;

/** A variable of a holder. Each page has thousands of these, so they are small. */
class Variable {
  /** @param {import('../types').VariableName} name */
  constructor(name) {
    this.name = name;
    /** @type {Variable|null} */
    this.next = null;
    this.flags = 0;
    /** The last actions that read and wrote it. */
    this.lastRead = 0;
    this.lastWrite = 0;
    /** Where its last write is among those of the running action (variables.js). */
    this.stagedAt = 0;
    /** Its number in the log. */
    this.line = 0;
    /** The first access, and what waits after it (waiting.js). */
    this.firstAccess = 0;
    this.firstSite = -1;
    /** @type {unknown} */
    this.firstAfter = UNKNOWN;
    /** @type {unknown} */
    this.firstBefore = UNKNOWN;
    /** @type {any[]|null} four entries an access, of several types (waiting.js) */
    this.waiting = null;
  }
}

/** An object or a scope, with its variables: a list of a few, by their names if there are more. */
class Holder {
  /**
   * @param {number} kind
   * @param {number} site where code met it first, or -1
   * @param {any} object an object of the page; of a window its Page
   */
  constructor(kind, site, object) {
    this.kind = kind;
    this.site = site;
    this.object = object;
    this.number = 0;
    /** @type {Variable|null} */
    this.first = null;
    this.count = 0;
    /** @type {Map<import('../types').VariableName, Variable>|null} */
    this.byName = null;
    /** The action in which it was first met, and the place where this action gave it a name that it had not. */
    this.since = 0;
    this.namesSite = -1;
    /** The action that made it, or 0 if this is not known. Its own accesses cannot race (docs/lost.md). */
    this.maker = 0;
    /**
     * Those of an element, which count if another action finds the element (waiting.js).
     * @type {any[]|null}
     */
    this.own = null;
  }

  /**
   * The variable of a name, or null. Called by properties.js.
   * @param {import('../types').VariableName} name
   * @returns {Variable|null}
   */
  find(name) {
    if (this.byName !== null) return this.byName.get(name) || null;
    for (let one = this.first; one !== null; one = one.next) {
      if (one.name === name) return one;
    }
    return null;
  }

  /**
   * Makes the variable of a name. Called by properties.js.
   * @param {import('../types').VariableName} name that it has not
   */
  add(name) {
    const variable = new Variable(name);
    variable.next = this.first;
    this.first = variable;
    this.count++;
    if (this.byName !== null) this.byName.set(name, variable);
    else if (this.count > MOST_IN_LIST) this.byName = this.variablesByName();
    if (name === NAMES && this.namesSite >= 0) this.seedNames(variable);
    return variable;
  }

  /** A table of the variables in the list. */
  variablesByName() {
    /** @type {Map<import('../types').VariableName, Variable>} */
    const byName = new Map();
    for (let one = this.first; one !== null; one = one.next) byName.set(one.name, one);
    return byName;
  }

  /**
   * The variable of a name, which is made if there is none.
   * @param {import('../types').VariableName} name
   */
  variable(name) {
    return this.find(name) || this.add(name);
  }

  /**
   * The action that met an object first usually made it, and gave it its names: they become a variable when another action asks for them.
   * @param {Variable} variable
   */
  seedNames(variable) {
    variable.firstAccess = accessOf(this.since, WRITE);
    variable.firstSite = this.namesSite;
    variable.lastWrite = this.since;
    variable.flags = IS_WRITTEN;
  }
}

/**
 * An access as one number: its action, and whether it reads, writes, or writes what was there. Called by variables.js.
 * @param {number} action
 * @param {number} mode
 */
const accessOf = (action, mode) => 4 * action + mode;
/**
 * Called by waiting.js.
 * @param {number} access
 */
const actionOf = (access) => access >> 2;
/**
 * Called by waiting.js.
 * @param {number} access
 */
const modeOf = (access) => access & 3;

export {
  READ, WRITE, KEPT, COUNTED, isWrite, PLAIN, LIST, BYTES, MAP, TREE, STYLE, CLASSES, DATA, SCOPE, WINDOW, SET, STORAGE, LEFT_OUT, BUILTIN,
  WHOLE, NAMES, ITEMS, SINGLE_ITEMS, OTHER_ITEMS, IS_SHARED, IS_WRITTEN, IS_READ, MAY_RACE, IS_LEFT_OUT, IS_COUNTED, IS_OF_TREE, Variable, Holder, accessOf, actionOf,
  modeOf,
};
