'use strict';
// The variables of closures and modules. Each run of a scope has a number, and what can race are the variables of such a run that a function inside it
// uses, and that are written after their first value. The first walk (look.js) finds these.

const { quote } = require('../marks/quote.js');
const { Variables, importOf } = require('./variables.js');

/**
 * @typedef {import('../syntax/scopes').Scope} Scope
 * @typedef {import('../syntax/scopes').Closure} Closure
 * @typedef {Scope & {closure: Closure}} ClosureScope
 * @typedef {import('./variables').Mode} Mode
 */

/** The helpers (page/helpers/scopes.js) for a read, a write, both, and a count. */
const OF_SCOPE = { r: 'v', w: 'z', u: 'y', U: 'Y' };

/**
 * The scope that has a variable which is no global one, or null.
 * @param {Scope} top
 * @param {Scope} scope
 * @param {string} name
 */
function ownerIn(top, scope, name) {
  const where = scope.where(name);
  if (where === 'module') return top;
  return where === 'local' ? scope.ownerOf(name) : null;
}

/** Made by instrument/instrument.js. */
class ClosureVariables extends Variables {
  /**
   * @param {import('../syntax/types').Options} options
   * @param {import('./variables').Module|null} module
   * @param {Scope} top
   */
  constructor(options, module, top) {
    super(options, module);
    this.top = top;
  }

  /**
   * @param {Scope} scope
   * @param {string} name
   */
  ownerIn(scope, name) {
    return ownerIn(this.top, scope, name);
  }

  /**
   * Whether the accesses to a name of a scope are marked. Called by instrument/insert/closure-marks.js.
   * @param {Scope|null} owner
   * @param {string} name
   * @returns {owner is ClosureScope}
   */
  isRecorded(owner, name) {
    return !!owner?.closure?.label && !owner.isHidden && owner.closure.recorded.has(name);
  }

  /**
   * Whether a name is a marked variable of a scope. Called by instrument/insert/closure-marks.js.
   * @param {Scope} scope
   * @param {string} name
   */
  isOfScope(scope, name) {
    return this.isRecorded(this.ownerIn(scope, name), name);
  }

  /**
   * @param {string} helper
   * @param {ClosureScope} owner
   * @param {string} name
   * @param {number} offset
   */
  callOf(helper, { closure }, name, offset) {
    return `__er.${helper}(${closure.label},${quote(name)},${this.options.site(offset)}`;
  }

  /**
   * The call of a helper for an access to a name, or null if it is not marked.
   * @param {Mode} mode
   * @param {string} name
   * @param {Scope} scope
   * @param {number} offset
   */
  call(mode, name, scope, offset) {
    const owner = this.ownerIn(scope, name);
    if (!owner || importOf(this.module, name, scope)) return super.call(mode, name, scope, offset);
    return this.isRecorded(owner, name) ? this.callOf(OF_SCOPE[mode], owner, name, offset) : null;
  }

  /**
   * The call for a first value, which only a whole recording (`--keep`) has. Called by instrument/insert/closure-marks.js.
   * @param {string} name
   * @param {Scope} scope
   * @param {number} offset
   */
  callOfFirst(name, scope, offset) {
    const owner = this.options.keepsAll ? this.ownerIn(scope, name) : null;
    return this.isRecorded(owner, name) ? this.callOf('F', owner, name, offset) : null;
  }

  /**
   * After a pattern the variables have their values.
   * @param {string[]} names
   * @param {Scope} scope
   * @param {number} offset
   */
  writesAfter(names, scope, offset) {
    return names.map((name) => {
      const call = this.call('w', name, scope, offset);
      return call && `${call}${this.isOfScope(scope, name) ? `,${name}` : ''})`;
    }).filter(Boolean).join(',');
  }

  // ---- modules

  /** A module's variables have the number of the module. */
  declareModule() {
    const label = this.top.closure?.label;
    return label ? `var ${label}=__er.s(${this.options.site(0)},${this.options.module});` : '';
  }

  labelOfModule() {
    return this.top.closure?.label || '0';
  }

  /**
   * Whether a variable of the module's own is marked.
   * @param {string} name
   */
  isReported(name) {
    return !!this.top.closure?.label && this.top.closure.recorded.has(name);
  }
}

module.exports = { ClosureVariables, ownerIn };
