// Variables of closures. Instrumented code makes a scope for each call of a function that has such variables, and passes it to the helpers. A page can get
// hold of scopes, so they show nothing. Captured variables are shared by the functions inside; each call of the outer function has its own.

import { hideClass } from '../core/hiding.js';
import { Holder, IS_COUNTED, READ, SCOPE } from './holders.js';
import { markOfStaged } from './sites.js';

/**
 * The holder of a scope, made when it is first needed; null if it is no scope, as that of a function which has not made it yet.
 * @type {(scope: unknown) => Holder|null}
 */
let holderOf;

/** Made by page/helpers/scopes.js. */
class Scope {
  #site;
  #number;
  #maker;
  /** @type {Holder|null} */
  #holder = null;

  static {
    holderOf = (scope) => (typeof scope === 'object' && scope !== null && #holder in scope ? scope.#holder || scope.#hold() : null);
  }

  /**
   * @param {number} site
   * @param {number} number of a module, or 0
   * @param {number} maker the action that makes it, or 0
   */
  constructor(site, number, maker) {
    this.#site = site;
    this.#number = number;
    this.#maker = maker;
  }

  /** Makes the holder of the scope's variables when one is first touched: most scopes never race. */
  #hold() {
    const holder = new Holder(SCOPE, this.#site, null);
    if (typeof this.#number === 'number') holder.number = this.#number;
    holder.maker = this.#maker;
    this.#holder = holder;
    return holder;
  }
}

hideClass(Scope);

/** One for each recording: `recording.objects.scopes`. */
class Scopes {
  /** @param {import('../types').Objects} objects */
  constructor(objects) {
    this.sites = objects.sites;
    this.variables = objects.variables;
  }

  /**
   * A read that is due at its site. Called by page/helpers/scopes.js.
   * @param {unknown} scope
   * @param {string} name
   * @param {number} site
   */
  read(scope, name, site) {
    const holder = holderOf(scope);
    if (holder !== null) this.variables.touchName(holder, name, READ, site);
  }

  /**
   * A read at a site that might have had the scope in the running piece. Called by page/accesses/imports.js.
   * @param {unknown} scope
   * @param {string} name
   * @param {number} site
   */
  readOnce(scope, name, site) {
    if (this.sites.objects[site] !== scope && this.sites.isDue(scope, site)) this.read(scope, name, site);
  }

  /**
   * A write that is due at its site. Called by page/helpers/scopes.js.
   * @param {unknown} scope
   * @param {string} name
   * @param {number} site
   * @param {'w'|'u'|'U'} modes
   * @param {unknown} before the value of the variable
   */
  write(scope, name, site, modes, before) {
    const { sites, variables } = this;
    const holder = holderOf(scope);
    if (holder === null) return;
    const variable = holder.variable(name);
    const isCount = modes === 'U' && variables.isOnlyCounted(variable);
    variable.flags &= ~IS_COUNTED;
    if (modes !== 'w') variables.readAs(holder, variable, site, before);
    variables.stage(holder, variable, site, before);
    if (isCount) variable.flags |= IS_COUNTED;
    sites.marks[site] = markOfStaged(variables.placeOfStaged(variable));
  }

  /**
   * The first value of a variable (KEEPS_ALL). Called by page/helpers/wholes.js.
   * @param {unknown} scope
   * @param {string} name
   * @param {number} site
   */
  keepFirst(scope, name, site) {
    const holder = holderOf(scope);
    if (holder !== null) this.variables.waiting.keep(holder, holder.variable(name), 'w', site, ' first');
  }
}

export { Scope, Scopes };
