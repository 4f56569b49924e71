// What code puts at the browser's own prototypes, as polyfills and plugins do: `Array.prototype.last = ..`, `Element.prototype.flash = ..`. A write of a name is
// recorded from then on with its reads, and a read of a name that no prototype has at each of them. A name that the browser has itself is read often, so it
// is no variable until code replaces it.

import { Set, getPrototypeOf, hasOwn } from '../core/taken.js';
import { BUILTIN, LEFT_OUT, READ, WRITE } from './holders.js';
import { LONGEST_PROTOTYPE_CHAIN } from './kinds.js';

/** One for each recording: `recording.objects.prototypes`. */
class Prototypes {
  /** @param {import('../types').Objects} objects */
  constructor(objects) {
    this.kinds = objects.kinds;
    this.variables = objects.variables;
    /**
     * The names that code has put at any of them.
     * @type {Set<import('../types').VariableName>}
     */
    this.names = new Set();
  }

  /**
   * An access to a prototype itself. Called by properties.js.
   * @param {import('../types').Holder} holder
   * @param {object} prototype
   * @param {import('../types').VariableName} name
   * @param {import('../types').Modes} modes
   * @param {number} site
   */
  access(holder, prototype, name, modes, site) {
    if (modes === 'r' || modes === 'u' || modes === 'U') this.read(prototype, name, site);
    if (modes === 'r') return;
    this.names.add(name);
    this.variables.touchName(holder, name, WRITE, site);
  }

  /**
   * Code reads a name of an object that has not this name itself. Called by collections.js and trees.js.
   * @param {object|null} prototype of the object
   * @param {import('../types').VariableName} name
   * @param {number} site
   */
  read(prototype, name, site) {
    let at = prototype;
    for (let depth = 0; at !== null && depth < LONGEST_PROTOTYPE_CHAIN; depth++) {
      const holder = this.kinds.holdPrototype(at);
      if (holder.kind === LEFT_OUT) return;
      if (hasOwn(at, name)) {
        if (holder.kind === BUILTIN) this.readPut(holder, name, site);
        return;
      }
      at = getPrototypeOf(at);
    }
    this.#readMissing(prototype, name, site);
  }

  /**
   * A read of a name that a prototype has: of code's own, or the browser's. Called by properties.js.
   * @param {import('../types').Holder} holder
   * @param {import('../types').VariableName} name
   * @param {number} site
   */
  readPut(holder, name, site) {
    const put = holder.first === null ? null : holder.find(name);
    if (put !== null) this.variables.touch(holder, put, READ, site);
  }

  /**
   * A read of a name that is nowhere: code can put it at one of them. Called by properties.js.
   * @param {import('../types').Holder} holder
   * @param {object|null} up its own prototype: that of all objects has none, and gets no names, since most missing names are of plain objects
   * @param {import('../types').VariableName} name
   * @param {number} site
   */
  readMissingAt(holder, up, name, site) {
    if (up !== null) this.variables.touchName(holder, name, READ, site);
    else this.readPut(holder, name, site);
  }

  /**
   * @param {object|null} prototype
   * @param {import('../types').VariableName} name
   * @param {number} site
   */
  #readMissing(prototype, name, site) {
    let at = prototype;
    for (let depth = 0; at !== null && depth < LONGEST_PROTOTYPE_CHAIN; depth++) {
      const holder = this.kinds.holdPrototype(at);
      const up = getPrototypeOf(at);
      if (holder.kind === BUILTIN) this.readMissingAt(holder, up, name, site);
      at = up;
    }
  }
}

export { Prototypes };
