// Imported names: a read of one is a read of the variable of the module that exports it; a module can export what another one exports. ES module bindings are
// live: a reader sees later writes.

import { each } from '../core/lists.js';
import { Map } from '../core/taken.js';
import { spellName } from '../log/spelling.js';

/** At most this many modules pass one export on. */
const MOST_HANDED_ON = 16;

/**
 * @typedef {object} Module its exports: variables of its own by their exported names, those of other modules, and modules of which it exports everything
 * @property {number} number
 * @property {unknown} scope of its variables, if they are recorded as those of closures
 * @property {Map<string, string>} own
 * @property {Map<string, {module: number, name: string}>} others
 * @property {number[]} wholes
 *
 * @typedef {{module: Module, name: string}} Export
 */

/** One for each document: `page.imports`. */
class Imports {
  /** @param {import('../types').Page} page */
  constructor(page) {
    this.page = page;
    this.recording = page.recording;
    /** @type {Map<number, Module>} */
    this.modules = new Map();
    /**
     * By the site of a read: the variable, or null if the module has none that changes.
     * @type {Map<number, Export|null>}
     */
    this.found = new Map();
  }

  /**
   * A module starts. Called by page/helpers/globals.js.
   * @param {number} number
   * @param {unknown} scope
   * @param {[string, string][]} own
   * @param {[string, {module: number, name: string}][]} others
   * @param {number[]} wholes
   */
  note(number, scope, own, others, wholes) {
    this.modules.set(number, { number, scope, own: new Map(own), others: new Map(others), wholes });
  }

  /**
   * The module and its own name of a variable; null if no module has it, undefined if one has not started yet.
   * @param {number} number
   * @param {string} name
   * @returns {Export|null|undefined}
   */
  #find(number, name, depth = 0) {
    const module = this.modules.get(number);
    if (!module || depth > MOST_HANDED_ON) return undefined;
    const own = module.own.get(name);
    if (own !== undefined) return { module, name: own };
    const other = module.others.get(name);
    if (other) return this.#find(other.module, other.name, depth + 1);
    /** @type {Export|null|undefined} */
    let found = null;
    each(module.wholes, (one) => { if (!found && name !== 'default') found = this.#find(one, name, depth + 1); });
    return found;
  }

  /**
   * Records the read of an imported name, as one of the exporter's variable. Called by a helper.
   * @param {number} number
   * @param {string} name
   * @param {number} site
   */
  read(number, name, site) {
    let found = this.found.get(site);
    if (found === undefined) {
      found = this.#find(number, name);
      if (found !== undefined) this.found.set(site, found);
    }
    if (!found) return;
    const { recording, page } = this;
    const { module } = found;
    if (module.scope) recording.objects?.scopes.readOnce(module.scope, found.name, site);
    else if (page.globals.isFirst(site)) recording.accessNow('r', `var ${module.number} ${spellName(found.name)}`, site);
  }
}

export { Imports };
