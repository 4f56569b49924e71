// Helpers for variables of closures. The first questions are here, and not in scopes.js: what the engine inlines of a call makes loops slow.

import { UNKNOWN } from '../log/values.js';
import { Scope } from '../objects/scopes.js';
import { markOfStaged } from '../objects/sites.js';

/**
 * The helpers of captured variables.
 * Called by helpers.js.
 * @param {import('../types').Objects} objects
 */
function helpersOfScopes({ recording, sites, scopes, variables }) {
  const { objects: lastObjects, marks } = sites;
  const { staged } = variables;
  /**
   * `before` and `after` are the values of the variable.
   * @type {(scope: unknown, name: string, site: number, modes: 'w'|'u'|'U', before: unknown, after: unknown) => void}
   */
  const write = (scope, name, site, modes, before, after) => {
    if (site >= lastObjects.length || lastObjects[site] !== scope) {
      if (!sites.isDue(scope, site)) return;
      scopes.write(scope, name, site, modes, before);
    }
    const at = markOfStaged(marks[site]);
    if (at >= 0) staged[at] = after;
  };
  return {
    /** @type {(scope: unknown, name: string, site: number) => void} */
    v: (scope, name, site) => {
      if ((site >= lastObjects.length || lastObjects[site] !== scope) && sites.isDue(scope, site)) scopes.read(scope, name, site);
    },
    /**
     * An expression that reads a variable first passes its values before and after.
     * @type {(scope: unknown, name: string, site: number, before: unknown, result: unknown, after: unknown) => unknown}
     */
    y: (scope, name, site, before, result, after) => { write(scope, name, site, 'u', before, after); return result; },
    /** @type {(scope: unknown, name: string, site: number, before: unknown, result: unknown, after: unknown) => unknown} */
    Y: (scope, name, site, before, result, after) => { write(scope, name, site, 'U', before, after); return result; },
    /**
     * A write passes its value and the one before, if they are known.
     * @param {unknown} scope
     * @param {string} name
     * @param {number} site
     * @param {unknown} [value]
     * @param {unknown} [before]
     */
    z(scope, name, site, value, before) {
      const { length } = arguments;
      write(scope, name, site, 'w', length > 4 ? before : UNKNOWN, length > 3 ? value : UNKNOWN);
      return value;
    },
    /**
     * @param {number} site
     * @param {number} [number] of a module
     */
    s: (site, number = 0) => new Scope(site, number, recording.makingAction()),
  };
}

export { helpersOfScopes };
