'use strict';
// The walk through a tree of acorn's: what is visited in which order, and in which scope. Subclasses say what is done there: the first walk (look.js), and
// those that insert marks. Statements, loops, functions, classes, `with`, `try`.

const { mayWait } = require('../syntax/children.js');
const { Scope, scopeOf } = require('../syntax/scopes.js');
const { namesOfPattern } = require('../syntax/names.js');
const { ExpressionWalker } = require('./expressions.js');

/**
 * @typedef {import('../syntax/types').Node} Node
 * @typedef {import('../syntax/types').Expression} Expression
 * @typedef {import('../syntax/types').FunctionNode} FunctionNode
 * @typedef {import('../syntax/types').ClassNode} ClassNode
 * @typedef {import('../syntax/types').ForEachStatement} ForEachStatement
 * @typedef {import('../syntax/types').ForStatement | ForEachStatement} Loop
 * @typedef {import('../syntax/types').DeclarationKind} DeclarationKind
 * @typedef {import('../syntax/scopes').Closure} Closure
 */

const nothing = () => {};

/**
 * Whether the head of a loop declares variables of each turn.
 * @param {Node|null} head
 */
const declaresTurns = (head) => head?.type === 'VariableDeclaration' && head.kind !== 'var';

/**
 * Called by instrument/insert/value-marks.js.
 * @param {ForEachStatement} loop
 */
const patternOfLoop = ({ left }) => (left.type === 'VariableDeclaration' ? left.declarations[0].id : left);

class Walker extends ExpressionWalker {
  /** @param {boolean} waits whether the code at the top may wait */
  constructor(waits) {
    super();
    /** Whether the code that is walked through may wait. */
    this.waits = waits;
    /** How often it has waited. */
    this.waited = 0;
    /** In how many of its loops the walk is. */
    this.loops = 0;
  }

  // ---- code and scopes

  /**
   * Visits code that runs apart from the code around it, as a function.
   * @param {boolean} waits
   * @param {() => void} visit
   */
  inCode(waits, visit) {
    const outer = { waits: this.waits, waited: this.waited, loops: this.loops };
    this.waits = waits;
    this.waited = 0;
    this.loops = 0;
    visit();
    this.waits = outer.waits;
    this.waited = outer.waited;
    this.loops = outer.loops;
  }

  /**
   * Called where a scope of its own starts, after the head that declares its variables; returns what is called where it ends.
   * @param {Scope} _scope
   * @param {Node} _node
   * @returns {() => void}
   */
  startScope(_scope, _node) {
    return nothing;
  }

  /**
   * Whether a declared variable may get its first value more than once. Called by instrument/insert/closure-marks.js and look.js.
   * @param {Closure} closure
   * @param {string} name
   * @param {number} start
   * @param {DeclarationKind} kind
   */
  comesAgain({ firsts }, name, start, kind) {
    if (kind !== 'var') return false;
    if (this.loops > 0) return true;
    const first = firsts.get(name) ?? start;
    firsts.set(name, first);
    return first !== start;
  }

  /**
   * Whether other code may have run between the start of the scope and the first value of a variable. Called by instrument/insert/closure-marks.js and look.js.
   * @param {Closure} closure
   * @param {Expression} init
   */
  comesLate({ waited }, init) {
    return this.waited > waited || (this.waits && mayWait(init));
  }

  /** Goes through a function in its own scope. What its parameters access of the scope is not marked: it starts after them. */
  visitFunction(/** @type {FunctionNode} */ node, /** @type {Scope} */ scope) {
    const inner = scopeOf(node, () => Scope.ofFunction(scope, node));
    this.inCode(node.async || node.generator, () => {
      inner.isHidden = true;
      node.params.forEach((parameter) => this.visitPattern(parameter, inner));
      inner.isHidden = false;
      const finish = this.startScope(inner, node);
      if (node.body.type === 'BlockStatement') this.visitChildren(node.body, inner);
      else this.visit(node.body, inner);
      finish();
    });
  }

  FunctionDeclaration(/** @type {FunctionNode} */ node, /** @type {Scope} */ scope) { this.visitFunction(node, scope); }
  FunctionExpression(/** @type {FunctionNode} */ node, /** @type {Scope} */ scope) { this.visitFunction(node, scope); }
  ArrowFunctionExpression(/** @type {FunctionNode} */ node, /** @type {Scope} */ scope) { this.visitFunction(node, scope); }

  visitClass(/** @type {ClassNode} */ node, /** @type {Scope} */ scope) {
    this.visitChildren(node, scopeOf(node, () => Scope.ofCode(scope, node.id ? [node.id.name] : [])), node.id);
  }

  ClassDeclaration(/** @type {ClassNode} */ node, /** @type {Scope} */ scope) { this.visitClass(node, scope); }
  ClassExpression(/** @type {ClassNode} */ node, /** @type {Scope} */ scope) { this.visitClass(node, scope); }

  StaticBlock(/** @type {import('../syntax/types').StaticBlock} */ node, /** @type {Scope} */ scope) {
    const inner = scopeOf(node, () => Scope.ofStaticBlock(scope, node.body));
    this.inCode(false, () => {
      const finish = this.startScope(inner, node);
      this.visitChildren(node, inner);
      finish();
    });
  }

  BlockStatement(/** @type {import('../syntax/types').BlockStatement} */ node, /** @type {Scope} */ scope) {
    const inner = scopeOf(node, () => Scope.ofBlock(scope, node.body));
    const finish = inner === scope ? nothing : this.startScope(inner, node);
    this.visitChildren(node, inner);
    finish();
  }

  SwitchStatement(/** @type {import('../syntax/types').SwitchStatement} */ node, /** @type {Scope} */ scope) {
    const inner = scopeOf(node, () => Scope.ofBlock(scope, node.cases.flatMap(({ consequent }) => consequent)));
    const finish = inner === scope ? nothing : this.startScope(inner, node);
    this.visit(node.discriminant, scope);
    node.cases.forEach((part) => this.visitChildren(part, inner));
    finish();
  }

  CatchClause(/** @type {import('../syntax/types').CatchClause} */ node, /** @type {Scope} */ scope) {
    const inner = scopeOf(node, () => new Scope(scope, namesOfPattern(node.param)));
    inner.isHidden = true;
    this.visitPattern(node.param, inner);
    inner.isHidden = false;
    const finish = this.startScope(inner, node);
    this.visit(node.body, inner);
    finish();
  }

  WithStatement(/** @type {import('../syntax/types').WithStatement} */ node, /** @type {Scope} */ scope) {
    this.visit(node.object, scope);
    this.visit(node.body, scopeOf(node, () => new Scope(scope, [], true)));
  }

  // ---- loops

  /**
   * Visits code that can run again: in it a declared variable can get a first value more than once.
   * @param {() => void} visit
   */
  inLoop(visit) {
    this.loops++;
    visit();
    this.loops--;
  }

  WhileStatement(/** @type {import('../syntax/types').WhileStatement} */ node, /** @type {Scope} */ scope) {
    this.inLoop(() => this.visitChildren(node, scope));
  }

  DoWhileStatement(/** @type {import('../syntax/types').DoWhileStatement} */ node, /** @type {Scope} */ scope) {
    this.inLoop(() => this.visitChildren(node, scope));
  }

  ForStatement(/** @type {import('../syntax/types').ForStatement} */ node, /** @type {Scope} */ scope) {
    const { init } = node;
    const hasTurns = declaresTurns(init);
    const inner = hasTurns ? scopeOf(node, () => Scope.ofBlock(scope, init?.type === 'VariableDeclaration' ? [init] : [])) : scope;
    if (hasTurns) inner.isHidden = true;
    this.inLoop(() => {
      if (init?.type === 'VariableDeclaration') this.visitDeclarations(init, inner);
      else if (init) this.visit(init, inner);
      this.visitAll([node.test, node.update], inner);
      this.visitBody(node, inner, hasTurns, '');
    });
  }

  /** Goes through a `for (.. of ..)` or `for (.. in ..)`: with `let` and `const` each turn has variables of its own. */
  visitForEach(/** @type {ForEachStatement} */ node, /** @type {Scope} */ scope) {
    const pattern = patternOfLoop(node);
    const hasTurns = declaresTurns(node.left);
    const inner = hasTurns ? scopeOf(node, () => new Scope(scope, namesOfPattern(pattern))) : scope;
    if (hasTurns) inner.isHidden = true;
    this.inLoop(() => {
      if (node.left.type !== 'VariableDeclaration') this.visitPattern(node.left, scope);
      const calls = hasTurns ? '' : this.callsAfter(namesOfPattern(pattern), inner, pattern.start);
      this.visitList(node, inner);
      this.visitBody(node, inner, hasTurns, calls);
    });
    if (node.await || (node.left.type === 'VariableDeclaration' && node.left.kind === 'await using')) this.waited++;
  }

  ForInStatement(/** @type {ForEachStatement} */ node, /** @type {Scope} */ scope) { this.visitForEach(node, scope); }
  ForOfStatement(/** @type {ForEachStatement} */ node, /** @type {Scope} */ scope) { this.visitForEach(node, scope); }

  /**
   * What a loop goes through.
   * @param {ForEachStatement} node
   * @param {Scope} scope
   */
  visitList(node, scope) {
    this.visit(node.right, scope);
  }

  /**
   * The body of a loop. The variables of its head are each turn's own; what the head does with them is no access. Called by instrument/insert/marks.js.
   * @param {Loop} loop
   * @param {Scope} scope
   * @param {boolean} hasTurns
   * @param {string} _calls inserted at the start of each turn
   */
  visitBody(loop, scope, hasTurns, _calls) {
    if (hasTurns) scope.isHidden = false;
    const finish = hasTurns ? this.startScope(scope, loop) : nothing;
    this.visit(loop.body, scope);
    finish();
  }

  /**
   * The calls for the writes of names that have their values.
   * @param {string[]} _names
   * @param {Scope} _scope
   * @param {number} _offset
   */
  callsAfter(_names, _scope, _offset) {
    return '';
  }

  // ---- statements

  ExpressionStatement(/** @type {import('../syntax/types').ExpressionStatement} */ node, /** @type {Scope} */ scope) {
    if (node.directive === undefined) this.visitChildren(node, scope);
  }

  LabeledStatement(/** @type {import('../syntax/types').LabeledStatement} */ node, /** @type {Scope} */ scope) { this.visit(node.body, scope); }
  BreakStatement(/** @type {Node} */ _node, /** @type {Scope} */ _scope) {}
  ContinueStatement(/** @type {Node} */ _node, /** @type {Scope} */ _scope) {}

  // ---- what waits

  /** `await using` waits at the end of its block. */
  VariableDeclaration(/** @type {import('../syntax/types').VariableDeclaration} */ node, /** @type {Scope} */ scope) {
    super.VariableDeclaration(node, scope);
    if (node.kind === 'await using') this.waited++;
  }

  AwaitExpression(/** @type {import('../syntax/types').AwaitExpression} */ node, /** @type {Scope} */ scope) {
    this.visitChildren(node, scope);
    this.waited++;
  }

  YieldExpression(/** @type {import('../syntax/types').YieldExpression} */ node, /** @type {Scope} */ scope) {
    this.visitChildren(node, scope);
    this.waited++;
  }
}

module.exports = { Walker, patternOfLoop, nothing };
