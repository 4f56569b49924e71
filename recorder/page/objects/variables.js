// Accesses of the running action to variables: which of them count, what a write has changed when the action is over, and writes that only move a counter.
// Repeated reads and writes in one action (in one handler or callback) are written once.

import { settings } from '../core/settings.js';
import { Object, getOwnPropertyDescriptor } from '../core/taken.js';
import { MISSING, UNKNOWN, keepable } from '../log/values.js';
import { BUILTIN, COUNTED, IS_COUNTED, IS_READ, KEPT, LIST, PLAIN, READ, SCOPE, TREE, WINDOW, WRITE, accessOf } from './holders.js';
import { Waiting } from './waiting.js';

const { keepsAll } = settings;

/** A write of the running action is five entries of a list: holder, variable, place, the values before and after it. */
const OF_STAGED = 5;
const AFTER = 4;
const NOT_STAGED = -1;

/** One for each recording: `recording.objects.variables`. */
class Variables {
  /** @param {import('../types').Objects} objects */
  constructor(objects) {
    this.objects = objects;
    this.recording = objects.recording;
    this.waiting = new Waiting(objects);
    /**
     * The writes of the running action: what they changed is known when it is over.
     * @type {any[]} OF_STAGED entries a write, of several types
     */
    this.staged = [];
  }

  /**
   * Records an access to the variable of a name.
   * @param {import('../types').Holder} holder
   * @param {import('../types').VariableName} name
   * @param {number} mode
   * @param {number} site
   */
  touchName(holder, name, mode, site) {
    this.touch(holder, holder.variable(name), mode, site);
  }

  /**
   * Records what an expression does with the variable of a name. Called by collections.js, properties.js and trees.js.
   * @param {import('../types').Holder} holder
   * @param {import('../types').VariableName} name
   * @param {import('../types').Modes} modes
   * @param {number} site
   */
  touchModes(holder, name, modes, site) {
    const variable = holder.variable(name);
    if (modes === 'U') {
      this.count(holder, variable, site);
      return;
    }
    if (modes === 'r' || modes === 'u') this.touch(holder, variable, READ, site);
    if (modes !== 'r') this.touch(holder, variable, WRITE, site);
  }

  /**
   * A count whose value nobody uses, as `n++` in a statement: two counts have the same result in either order. Called by properties.js.
   * @param {import('../types').Holder} holder
   * @param {import('../types').Variable} variable
   * @param {number} site
   */
  count(holder, variable, site) {
    const isOnlyCounted = this.isOnlyCounted(variable);
    this.touch(holder, variable, READ, site);
    this.touch(holder, variable, WRITE, site);
    if (isOnlyCounted) variable.flags |= IS_COUNTED;
  }

  /**
   * Whether the running action has done nothing with a variable except to count it. Called by page/accesses/globals.js and scopes.js.
   * @param {import('../types').Variable} variable
   */
  isOnlyCounted({ flags, lastRead, lastWrite }) {
    const { actions } = this.recording;
    return lastWrite === actions ? (flags & IS_COUNTED) !== 0 : lastRead !== actions;
  }

  /**
   * An access of the running action. A read of what this action itself has written says nothing about another action. Called by collections.js, properties.js
   * and trees.js.
   * @param {import('../types').Holder} holder
   * @param {import('../types').Variable} variable
   * @param {number} mode
   * @param {number} site
   */
  touch(holder, variable, mode, site) {
    const { actions } = this.recording;
    variable.flags &= ~IS_COUNTED;
    if (holder.maker === actions && holder.kind !== TREE) this.#touchOwn(holder, variable, mode, site);
    else if (mode === WRITE) {
      if (variable.lastWrite !== actions) this.stage(holder, variable, site, this.#valueOf(holder, variable));
    } else if (variable.lastWrite === actions) {
      if (keepsAll) this.waiting.keep(holder, variable, 'r', site, ' own');
    } else if (variable.lastRead !== actions) {
      this.#read(holder, variable, site, this.#valueOf(holder, variable));
    }
  }

  /**
   * An access of the action that made a thing to this thing: whatever else touches it gets it from this action, and so comes later. A read shows that
   * what other actions write is of use.
   * @param {import('../types').Holder} holder
   * @param {import('../types').Variable} variable
   * @param {number} mode
   * @param {number} site
   */
  #touchOwn(holder, variable, mode, site) {
    if (mode === READ) variable.flags |= IS_READ;
    if (keepsAll) this.waiting.keep(holder, variable, mode === READ ? 'r' : 'w', site, ' first');
  }

  /**
   * The read of an expression that has changed the variable already. Called by page/accesses/globals.js and scopes.js.
   * @param {import('../types').Holder} holder
   * @param {import('../types').Variable} variable
   * @param {number} site
   * @param {unknown} value what it found
   */
  readAs(holder, variable, site, value) {
    const { actions } = this.recording;
    if (variable.lastWrite === actions || holder.maker === actions) this.touch(holder, variable, READ, site);
    else if (variable.lastRead !== actions) this.#read(holder, variable, site, value);
  }

  /**
   * Records a read, with what it found.
   * @param {import('../types').Holder} holder
   * @param {import('../types').Variable} variable
   * @param {number} site
   * @param {unknown} value
   */
  #read(holder, variable, site, value) {
    const { actions } = this.recording;
    variable.lastRead = actions;
    variable.flags |= IS_READ;
    if (keepsAll) this.waiting.keep(holder, variable, 'r', site, holder.maker === actions ? ' first' : '');
    this.waiting.settle(holder, variable, accessOf(actions, READ), site, valueFor(holder, value), UNKNOWN);
  }

  /**
   * A write that is about to come, or has come. Called by page/accesses/globals.js, scopes.js and trees.js.
   * @param {import('../types').Holder} holder
   * @param {import('../types').Variable} variable
   * @param {number} site
   * @param {unknown} before the value before it
   */
  stage(holder, variable, site, before) {
    const { actions } = this.recording;
    if (variable.lastWrite === actions) return;
    if (holder.maker === actions && holder.kind !== TREE) {
      this.#touchOwn(holder, variable, WRITE, site);
      return;
    }
    variable.lastWrite = actions;
    if (keepsAll) this.waiting.keep(holder, variable, 'w', site, holder.maker === actions ? ' first' : '');
    const { staged } = this;
    const at = staged.length;
    variable.stagedAt = at;
    staged[at] = holder;
    staged[at + 1] = variable;
    staged[at + 2] = site;
    staged[at + 3] = before;
    staged[at + AFTER] = UNKNOWN;
  }

  /**
   * Where the value after a write of the running action is stored. Called by scopes.js.
   * @param {import('../types').Variable} variable
   */
  placeOfStaged(variable) {
    const at = variable.stagedAt;
    return this.staged[at + 1] === variable ? at + AFTER : NOT_STAGED; // its write may be settled
  }

  /**
   * The value of a variable, if a look at it runs nothing of the page.
   * @param {import('../types').Holder} holder
   * @param {import('../types').Variable} variable
   * @returns {unknown}
   */
  #valueOf({ kind, object }, { name }) {
    if (kind === WINDOW) return object.globals.valueOf(name);
    if (kind === TREE) return this.objects.trees.valueOf(object, name);
    if (typeof name === 'string' ? (kind !== PLAIN && kind !== BUILTIN) || name[0] === '(' || name[0] === '#' : kind !== LIST) return UNKNOWN;
    const found = getOwnPropertyDescriptor(object, name);
    if (found === undefined) return MISSING;
    return kind === BUILTIN && !('value' in found) ? UNKNOWN : found.value;
  }

  // ---- the end of an action

  /**
   * The running action is over. A write after which the variable has the same value as before is written as a read: libraries make one when they replace
   * something for the time of a call. An action that really writes the variable still has a race with this one, and an action that only reads it finds
   * the same value in either order. Called by objects.js.
   */
  settleWrites() {
    const { staged } = this;
    for (let k = 0; k < staged.length; k += OF_STAGED) {
      const after = staged[k].kind === SCOPE ? staged[k + AFTER] : this.#valueOf(staged[k], staged[k + 1]);
      this.#settleWrite(staged[k], staged[k + 1], staged[k + 2], staged[k + 3], after);
    }
    staged.length = 0;
  }

  /**
   * A write whose action, or piece of it, is over: `after` is what it left. If that is the value from before, it counts as a read.
   * @param {import('../types').Holder} holder
   * @param {import('../types').Variable} variable
   * @param {number} site
   * @param {unknown} before
   * @param {unknown} after
   */
  #settleWrite(holder, variable, site, before, after) {
    const { actions } = this.recording;
    if (holder.kind === WINDOW) holder.object.globals.noteValue(variable.name, after);
    const isKept = isSame(holder, before, after);
    if (isKept && keepsAll) this.recording.log.line(`same ${variable.line}`);
    if (isKept && variable.lastRead === actions) return;
    if (isKept) variable.lastRead = actions;
    const access = accessOf(actions, isKept ? KEPT : writeMode(variable, after));
    this.waiting.settle(holder, variable, access, site, valueFor(holder, after), valueFor(holder, before));
  }

  /** Between two batches of lines the action can go on: its writes after that are other writes. Called by objects.js. */
  settleEarly() {
    const { staged } = this;
    for (let k = 0; k < staged.length; k += OF_STAGED) staged[k + 1].lastWrite = 0;
    this.settleWrites();
  }
}

/**
 * A variable that is in no object, as a `let` at the top of a script, is not there before or after a write of it.
 * @param {import('../types').Holder} holder
 * @param {unknown} before
 * @param {unknown} after
 */
function isSame({ kind }, before, after) {
  return before !== UNKNOWN && after !== UNKNOWN && Object.is(before, after) && (kind !== WINDOW || after !== MISSING);
}

/**
 * A value as an access that waits has it. A property that is missing in an object is nothing; one of a window might be in no object.
 * @param {import('../types').Holder} holder
 * @param {unknown} value
 */
function valueFor({ kind }, value) {
  return value === MISSING && kind !== WINDOW ? undefined : keepable(value);
}

/**
 * @param {import('../types').Variable} variable
 * @param {unknown} after
 */
function writeMode({ flags }, after) {
  return (flags & IS_COUNTED) !== 0 && typeof after === 'number' ? COUNTED : WRITE;
}

export { Variables };
