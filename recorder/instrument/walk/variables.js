'use strict';
// The calls that report accesses to variables: which names are global variables of the page, those of a module, or what it imports; and the call that reports
// its exports. Closures: closures.js. `undefined`, `arguments` and others are never marked, nor is a name inside a `with` statement (`unknown`).

const { quote } = require('../marks/quote.js');
const { WHOLE } = require('../syntax/imports.js');

/**
 * @typedef {import('../syntax/scopes').Scope} Scope
 * @typedef {import('../syntax/types').Options} Options
 * @typedef {import('../syntax/types').MemberExpression} MemberExpression
 * @typedef {Exclude<import('./expressions').Mode, 'd'>} Mode
 * @typedef {object} Module a module that is instrumented
 * @property {Scope} scope
 * @property {Map<string, import('../syntax/imports').Imported>} imports
 * @property {import('../syntax/imports').Exported} exported
 */

/** Names that are no variables of the page, though they look like globals. */
const NEVER_RECORDED = new Set(['undefined', 'arguments', 'eval', 'NaN', 'Infinity', '__er']);

/**
 * What a name of the code is of another module, or undefined.
 * @param {Module|null} module
 * @param {string} name
 * @param {Scope} scope
 */
function importOf(module, name, scope) {
  if (!module?.imports.has(name) || scope.where(name) !== 'local' || scope.ownerOf(name) !== module.scope) return undefined;
  return module.imports.get(name);
}

class Variables {
  /**
   * @param {Options} options
   * @param {Module|null} module
   */
  constructor(options, module) {
    this.options = options;
    this.module = module;
  }

  /**
   * The call that reports an access to a name, without its last argument (the value that is written) and its bracket; null if the name is none of the
   * page's global variables. Called by instrument/insert/closure-marks.js, instrument/insert/marks.js and instrument/instrument.js.
   * @param {Mode} mode
   * @param {string} name
   * @param {Scope} scope
   * @param {number} offset
   * @returns {string|null}
   */
  call(mode, name, scope, offset) {
    if (NEVER_RECORDED.has(name)) return null;
    const imported = importOf(this.module, name, scope);
    if (imported) return mode === 'r' && imported.name !== WHOLE ? this.importedCall(imported.from, imported.name, offset) : null;
    const where = scope.where(name);
    if (where === 'module') return `__er.${mode}m(${this.options.module},${quote(name)},${this.options.site(offset)}`;
    if (where !== 'global' || this.options.builtins.has(name)) return null;
    const inHandler = this.options.kind === 'handler';
    return `__er.${mode}${inHandler ? 'h(this,' : '('}${quote(name)},${this.options.site(offset)}`;
  }

  /**
   * The same call, whole. Called by instrument/insert/closure-marks.js and instrument/insert/marks.js.
   * @param {Mode} mode
   * @param {string} name
   * @param {Scope} scope
   * @param {number} offset
   */
  access(mode, name, scope, offset) {
    const call = this.call(mode, name, scope, offset);
    return call && `${call})`;
  }

  /**
   * The calls for the writes of names that have their values. Called by instrument/insert/marks.js.
   * @param {string[]} names
   * @param {Scope} scope
   * @param {number} offset
   */
  writesAfter(names, scope, offset) {
    return names.map((name) => this.access('w', name, scope, offset)).filter(Boolean).join(',');
  }

  // ---- modules

  /** What a module declares for its own variables. Called by instrument/instrument.js. */
  declareModule() {
    return '';
  }

  /** The variable that has the number of the module's scope, in its code. */
  labelOfModule() {
    return '0';
  }

  /**
   * Whether a variable of a module is marked.
   * @param {string} _name
   */
  isReported(_name) {
    return true;
  }

  /** The call that reports what a module exports. Called by instrument/instrument.js. */
  declareExports() {
    if (!this.module) return '';
    const { exported } = this.module;
    const own = exported.own.filter(([, name]) => this.isReported(name));
    const others = exported.others.flatMap(({ name, from, there }) => {
      const module = this.numberOf(from);
      return module ? [[name, { module, name: there }]] : [];
    });
    const wholes = exported.wholes.map((from) => this.numberOf(from)).filter(Boolean);
    if (!exported.own.length && !others.length && !wholes.length) return '';
    return `__er.E(${this.options.module},${this.labelOfModule()},${quote(own)},${quote(others)},${quote(wholes)});`;
  }

  /**
   * The number of another module.
   * @param {string} name of another module
   */
  numberOf(name) {
    return this.options.numberOfModule?.(name);
  }

  /**
   * The call for a read of what another module exports, without its bracket; null if it is none.
   * @param {string} from
   * @param {string} name
   * @param {number} offset
   */
  importedCall(from, name, offset) {
    const module = this.numberOf(from);
    return module === undefined ? null : `__er.V(${module},${quote(name)},${this.options.site(offset)}`;
  }

  /**
   * The call for `all.n`, where `all` is another module as a whole. Called by instrument/insert/member-marks.js and instrument/insert/window-marks.js.
   * @param {MemberExpression} member
   * @param {Scope} scope
   */
  readOfModule({ object, computed, property }, scope) {
    if (object.type !== 'Identifier' || computed || property.type !== 'Identifier') return null;
    const imported = importOf(this.module, object.name, scope);
    return imported?.name === WHOLE ? this.importedCall(imported.from, property.name, property.start) : null;
  }
}

module.exports = { Variables, importOf, NEVER_RECORDED };
