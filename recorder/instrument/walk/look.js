'use strict';
// The first walk: it finds the variables of scopes that may change after a function has seen them, and marks nothing. Other local variables get no marks:
// nothing can race on them, and the code stays fast.

const { namesOfPattern } = require('../syntax/names.js');
const { Walker, nothing } = require('./walker.js');
const { importOf } = require('./variables.js');
const { ownerIn } = require('./closures.js');

/**
 * @typedef {import('../syntax/scopes').Scope} Scope
 * @typedef {import('./closures').ClosureScope} ClosureScope
 * @typedef {import('../syntax/types').Node} Node
 * @typedef {import('../syntax/types').Identifier} Identifier
 * @typedef {import('../syntax/types').FunctionNode} FunctionNode
 * @typedef {import('../syntax/types').ClassNode} ClassNode
 * @typedef {import('./expressions').Initialized} Initialized
 */

/**
 * Where the function is made that contains a scope; a declared one is there from the start.
 * @param {Scope} scope
 * @param {Scope} owner
 */
function makerIn(scope, owner) {
  let { code } = scope;
  while (code?.parent && code.parent.code !== owner.code) code = code.parent.code;
  return code ? code.madeAt : 0;
}

class Look extends Walker {
  /**
   * @param {Scope} top
   * @param {import('./variables').Module|null} module
   */
  constructor(top, module) {
    super(module !== null);
    this.top = top;
    this.module = module;
    /**
     * The scopes whose variables may be marked.
     * @type {ClosureScope[]}
     */
    this.scopes = [];
    /**
     * The function whose `this` the code has.
     * @type {FunctionNode|null}
     */
    this.ofThis = null;
    if (module) this.startScope(top);
  }

  /**
   * Collects what is known of a scope's variables.
   * @param {Scope} scope
   */
  startScope(scope) {
    scope.closure = { captured: new Map(), assigned: new Map(), firsts: new Map(), waited: this.waited, recorded: new Set(), label: '' };
    this.scopes.push(/** @type {ClosureScope} */ (scope));
    return nothing;
  }

  // ---- `this`

  /** A function with a `this` of its own; arrow functions have that of the code around them. */
  visitFunction(/** @type {FunctionNode} */ node, /** @type {Scope} */ scope) {
    const outer = this.ofThis;
    if (node.type !== 'ArrowFunctionExpression') this.ofThis = node;
    super.visitFunction(node, scope);
    this.ofThis = outer;
  }

  ThisExpression() {
    if (this.ofThis) this.ofThis.usesThis = true;
  }

  /** Only a constructor of a class that extends no other has an object of its own from the start. */
  visitClass(/** @type {ClassNode} */ node, /** @type {Scope} */ scope) {
    for (const member of node.body.body) {
      if (member.type === 'MethodDefinition' && (member.kind !== 'constructor' || node.superClass)) member.value.isMethod = true;
    }
    super.visitClass(node, scope);
  }

  // ---- accesses

  /**
   * A name is used: its variable may be captured or assigned here.
   * @param {'r'|'w'} mode
   * @param {string} name
   * @param {Scope} scope
   */
  touch(mode, name, scope) {
    const owner = ownerIn(this.top, scope, name);
    if (!owner?.closure || owner.isHidden || importOf(this.module, name, scope)) return;
    if (scope.code !== owner.code) this.capture(owner, name, makerIn(scope, owner));
    if (mode === 'w') owner.closure.assigned.set(name, Infinity);
  }

  /**
   * A function uses a variable of an outer scope.
   * @param {Scope} owner
   * @param {string} name
   * @param {number} madeAt
   */
  capture({ closure }, name, madeAt) {
    closure?.captured.set(name, Math.min(closure.captured.get(name) ?? Infinity, madeAt));
  }

  Identifier(/** @type {Identifier} */ node, /** @type {Scope} */ scope) {
    this.touch('r', node.name, scope);
  }

  visitShorthand(/** @type {import('../syntax/types').Property} */ { value }, /** @type {Scope} */ scope) {
    this.visit(value, scope);
  }

  visitTypeof(/** @type {Node} */ _node, /** @type {Identifier} */ argument, /** @type {Scope} */ scope) {
    this.touch('r', argument.name, scope);
  }

  updateVariable(/** @type {Node} */ _node, /** @type {Identifier} */ argument, /** @type {Scope} */ scope) {
    this.touch('w', argument.name, scope);
  }

  assignVariable(/** @type {import('../syntax/types').AssignmentExpression} */ node, /** @type {Identifier} */ left, /** @type {Scope} */ scope) {
    this.touch('w', left.name, scope);
    this.visit(node.right, scope);
  }

  assignPattern(/** @type {import('../syntax/types').AssignmentExpression} */ node, /** @type {Scope} */ scope) {
    this.touchAll(namesOfPattern(node.left), scope);
    super.assignPattern(node, scope);
  }

  /**
   * @param {string[]} names
   * @param {Scope} scope
   */
  touchAll(names, scope) {
    names.forEach((name) => this.touch('w', name, scope));
  }

  /**
   * Names get their values here. Nothing is marked in this walk.
   * @param {string[]} names
   * @param {Scope} scope
   */
  callsAfter(names, scope) {
    this.touchAll(names, scope);
    return '';
  }

  /** A first value counts if it comes again, or comes after a function that was made before may have run. */
  visitInitializer(/** @type {Initialized} */ { id, init }, /** @type {Scope} */ scope, /** @type {import('../syntax/types').DeclarationKind} */ kind) {
    for (const name of namesOfPattern(id)) {
      const owner = ownerIn(this.top, scope, name);
      if (!owner?.closure || owner.isHidden) continue;
      if (this.comesAgain(owner.closure, name, id.start, kind)) this.touch('w', name, scope);
      else if (this.comesLate(owner.closure, init) && !owner.closure.assigned.has(name)) owner.closure.assigned.set(name, id.start);
    }
    this.visit(init, scope);
  }

  /**
   * A class that a module declares is written where it is.
   * @param {import('../syntax/types').Statement} statement
   */
  visitTop(statement) {
    this.visit(statement, this.top);
    if (statement.type === 'ClassDeclaration' && statement.id) this.touch('w', statement.id.name, this.top);
  }
}

/**
 * Walks through a program; then its scopes know which variables are marked. Called by instrument/instrument.js.
 * @param {import('../syntax/types').Program} program
 * @param {Scope} top
 * @param {import('./variables').Module|null} module
 * @param {boolean} keepsAll whether all variables that a function uses are marked
 */
function lookAhead(program, top, module, keepsAll) {
  const look = new Look(top, module);
  program.body.forEach((statement) => look.visitTop(statement));
  module?.exported.own.forEach(([, name]) => look.capture(top, name, -1)); // other modules may use it at any time
  let labels = 0;
  for (const { closure } of look.scopes) {
    const { captured, assigned } = closure;
    closure.recorded = new Set([...captured].filter(([name, madeAt]) => keepsAll || madeAt < (assigned.get(name) ?? -Infinity)).map(([name]) => name));
    if (closure.recorded.size) closure.label = `__er_${++labels}`;
  }
}

module.exports = { lookAhead };
