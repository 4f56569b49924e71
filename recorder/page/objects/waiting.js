// Accesses that wait at their variables, and how they are written.
//
// An access is not written at once. It waits until two actions have touched its variable and one of them has written it: most variables never come that
// far, as no race is possible there. So the log has only accesses that might race, and a page of many objects costs memory for each variable that it
// touches, and no line. docs/lost.md has the rules by which the rest is left out, with their reasons. With KEEPS_ALL each access is also written in
// its place, so that the rules can be tested against the whole.

import { each } from '../core/lists.js';
import { Object } from '../core/taken.js';
import { spellName } from '../log/spelling.js';
import { UNKNOWN, digestOf } from '../log/values.js';
import {
  COUNTED, IS_READ, IS_SHARED, IS_WRITTEN, ITEMS, LIST, MAY_RACE, NAMES, OTHER_ITEMS, SCOPE, SINGLE_ITEMS, actionOf, isWrite, modeOf,
} from './holders.js';
import { isAccessor } from './kinds.js';

/** At most this many accesses wait at a variable; then further reads are not stored. */
const MOST_WAITING = 4000;
/** An access that waits is four entries of a list: the access as a number, its place, the values after and before it. */
const OF_WAITING = 4;

/** Made by variables.js, as its `waiting`. */
class Waiting {
  /** @param {import('../types').Objects} objects */
  constructor(objects) {
    this.recording = objects.recording;
    this.objectNames = objects.objectNames;
    this.callers = objects.callers;
    this.lines = 0;
  }

  /**
   * An access whose values are known: it is written if its variable might race, else it waits. Called by variables.js.
   * @param {import('../types').Holder} holder
   * @param {import('../types').Variable} variable
   * @param {number} access
   * @param {number} site
   * @param {unknown} after
   * @param {unknown} before
   */
  settle(holder, variable, access, site, after, before) {
    if (holder.maker === actionOf(access)) {
      this.#holdBack(holder, [variable, access, site, after, before]);
      return;
    }
    if (isWrite(modeOf(access))) variable.flags |= IS_WRITTEN;
    if (variable.flags & MAY_RACE) {
      this.#write(variable, access, site, after, before);
      return;
    }
    if (variable.firstAccess === 0) {
      variable.firstAccess = access;
      variable.firstSite = site;
      variable.firstAfter = after;
      variable.firstBefore = before;
    } else {
      if (actionOf(variable.firstAccess) !== actionOf(access)) variable.flags |= IS_SHARED;
      if (!this.#wait(variable, access, site, after, before)) return;
    }
    if (mayRace(holder, variable)) this.#writeAll(holder, variable);
  }

  /**
   * An access of the action that made an element.
   * @param {import('../types').Holder} holder
   * @param {any[]} access as `settle` gets it
   */
  #holdBack(holder, access) {
    if (holder.own === null) holder.own = [];
    const { own } = holder;
    if (own.length < MOST_WAITING) own[own.length] = access;
  }

  /**
   * Another action has found an element where it might have been missing: what the action that made the element has done with it counts from now on. Called by
   * made-elements.js.
   * @param {import('../types').Holder} holder
   */
  release(holder) {
    const { own } = holder;
    holder.own = null;
    holder.maker = 0;
    if (own !== null) each(own, ({ 0: variable, 1: access, 2: site, 3: after, 4: before }) => this.settle(holder, variable, access, site, after, before));
  }

  /**
   * Returns whether the access waits now.
   * @param {import('../types').Variable} variable
   * @param {number} access
   * @param {number} site
   * @param {unknown} after
   * @param {unknown} before
   */
  #wait(variable, access, site, after, before) {
    if (variable.waiting === null) {
      variable.waiting = [access, site, after, before];
      return true;
    }
    const { waiting } = variable;
    const at = waiting.length;
    if (at >= OF_WAITING * MOST_WAITING && !isWrite(modeOf(access))) {
      this.recording.log.miss(`reads of variables that more than ${MOST_WAITING} actions have read before any writes them`);
      return false;
    }
    waiting[at] = access;
    waiting[at + 1] = site;
    waiting[at + 2] = after;
    waiting[at + 3] = before;
    return true;
  }

  /**
   * From now on the variable might race.
   * @param {import('../types').Holder} holder
   * @param {import('../types').Variable} variable
   */
  #writeAll(holder, variable) {
    const { waiting } = variable;
    variable.waiting = null;
    variable.flags |= MAY_RACE;
    this.#declare(holder, variable);
    this.#write(variable, variable.firstAccess, variable.firstSite, variable.firstAfter, variable.firstBefore);
    for (let k = 0; waiting !== null && k < waiting.length; k += OF_WAITING) this.#write(variable, waiting[k], waiting[k + 1], waiting[k + 2], waiting[k + 3]);
  }

  /**
   * Gives a variable its number in the log.
   * @param {import('../types').Holder} holder
   * @param {import('../types').Variable} variable
   */
  #declare(holder, variable) {
    if (variable.line) return;
    variable.line = ++this.lines;
    const { log } = this.recording;
    log.line(`at ${variable.line} var ${this.objectNames.numberOf(holder)} ${spellName(variable.name)}${this.objectNames.attributesOf(holder, variable)}`);
  }

  /**
   * The driver puts the access to its action.
   * @param {import('../types').Variable} variable
   * @param {number} access
   * @param {number} site
   * @param {unknown} after
   * @param {unknown} before
   */
  #write(variable, access, site, after, before) {
    const { callers, recording } = this;
    const line = `in ${actionOf(access)} ${'rwkw'[modeOf(access)]} ${variable.line}`;
    recording.log.line(line, callers.siteOf(site), foundOf(modeOf(access), after, before), callers.stackOf(site));
  }

  // ---- all accesses (KEEPS_ALL)

  /**
   * Writes an access in its own place, whatever the rules say of it. Called by scopes.js and variables.js.
   * @param {import('../types').Holder} holder
   * @param {import('../types').Variable} variable
   * @param {'r'|'w'} mode
   * @param {number} site
   */
  keep(holder, variable, mode, site, why = '') {
    this.#declare(holder, variable);
    this.recording.log.line(`all ${mode} ${variable.line}${why}`, this.callers.siteOf(site));
  }

  /**
   * Writes the properties in the literal of an object or an array. Called by page/helpers/wholes.js.
   * @param {import('../types').Holder} holder
   * @param {number} site
   */
  keepFirsts(holder, site) {
    const { kind, object } = holder;
    const names = kind === LIST ? itemsOf(object) : namesOf(object);
    each(names, (name) => this.keep(holder, holder.variable(name), 'w', site, ' first'));
  }
}

/**
 * The variables of an array literal.
 * @param {ArrayLike<unknown>} list
 */
function itemsOf({ length }) {
  /** @type {import('../types').VariableName[]} */
  const items = [ITEMS];
  for (let k = 0; k < length && k < SINGLE_ITEMS; k++) items[k + 1] = k;
  if (length > SINGLE_ITEMS) items[SINGLE_ITEMS + 1] = OTHER_ITEMS;
  return items;
}

/**
 * The variables of an object literal.
 * @param {object} object
 */
function namesOf(object) {
  /** @type {import('../types').VariableName[]} */
  const names = [NAMES];
  each(Object.keys(object), (name) => { if (!isAccessor(object, name)) names[names.length] = name; });
  return names;
}

/**
 * A variable of a closure that no action reads before it writes it passes nothing from one action to the other.
 * @param {import('../types').Holder} holder
 * @param {import('../types').Variable} variable
 */
function mayRace({ kind }, { flags }) {
  return (flags & IS_SHARED) !== 0 && (flags & IS_WRITTEN) !== 0 && (kind !== SCOPE || (flags & IS_READ) !== 0);
}

/**
 * What the log has of the values: that of a read, and of a write `AFTER<BEFORE`, with `+` between for a count; undefined if no
 * value is known: then the line has none. Called by #write.
 * @param {number} mode
 * @param {unknown} after
 * @param {unknown} before
 */
function foundOf(mode, after, before) {
  if (!isWrite(mode)) return after === UNKNOWN ? undefined : digestOf(after);
  if (after === UNKNOWN && before === UNKNOWN) return undefined;
  return `${digestOf(after)}${mode === COUNTED ? '+' : ''}<${digestOf(before)}`;
}

export { Waiting };
