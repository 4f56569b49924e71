'use strict';
// Marks the variables of closures and modules too (closures.js): each scope that has such variables gets a number as it starts.

const { namesOfPattern } = require('../syntax/names.js');
const { nothing } = require('../walk/walker.js');
const { startOfStatements } = require('./inserter.js');
const { Marks, LOGICAL } = require('./marks.js');

/**
 * @typedef {import('../syntax/scopes').Scope} Scope
 * @typedef {import('../syntax/types').Node} Node
 * @typedef {import('../syntax/types').Expression} Expression
 * @typedef {import('../syntax/types').FunctionNode} FunctionNode
 * @typedef {import('../syntax/types').Identifier} Identifier
 * @typedef {import('../syntax/types').UpdateExpression} UpdateExpression
 * @typedef {import('../syntax/types').AssignmentExpression} AssignmentExpression
 * @typedef {import('../syntax/types').DeclarationKind} DeclarationKind
 * @typedef {import('../walk/expressions').Initialized} Initialized
 */

/** Extended by member-marks.js. */
class ClosureMarks extends Marks {
  /**
   * @param {string} code
   * @param {import('../syntax/types').Options} options
   * @param {import('../walk/closures').ClosureVariables} variables
   */
  constructor(code, options, variables) {
    super(code, options, variables);
    this.variables = variables;
    /**
     * Expressions whose value is not used.
     * @type {Set<Node>}
     */
    this.unused = new Set();
  }

  // ---- scopes

  /**
   * The text that gives a scope its number, or '' if nothing of it is marked.
   * @param {Scope} scope
   * @param {'var'|'let'} keyword
   * @param {number} start
   * @param {string} name
   */
  declaration({ closure }, keyword, start, name) {
    return closure?.label ? `${keyword} ${closure.label}=__er.s(${this.site(start, { scope: name })});` : '';
  }

  /** Inserts what gives a scope its number, at its start. Returns what inserts at its end. */
  startScope(/** @type {Scope} */ scope, /** @type {Node} */ node) {
    switch (node.type) {
      case 'FunctionDeclaration': case 'FunctionExpression': case 'ArrowFunctionExpression': return this.startFunction(scope, node);
      case 'ForStatement': case 'ForInStatement': case 'ForOfStatement': return this.startAround(scope, node.body);
      case 'SwitchStatement': return this.startAround(scope, node);
      case 'CatchClause': return this.startBlock(scope, node, node.body.start + 1);
      case 'StaticBlock': return this.startBlock(scope, node, this.inserter.endOfToken(node.start, '\\{'));
      default: return this.startBlock(scope, node, node.start + 1);
    }
  }

  /**
   * A block that declares captured variables gets the number of its scope as it starts.
   * @param {Scope} scope
   * @param {Node} node
   * @param {number} offset after the brace
   */
  startBlock(scope, node, offset) {
    const number = this.declaration(scope, 'let', node.start, '{');
    if (number) this.inserter.insert(offset, number);
    return nothing;
  }

  /** The number is before the statement, in a block of both. */
  startAround(/** @type {Scope} */ scope, /** @type {Node} */ statement) {
    const number = this.declaration(scope, 'let', statement.start, '{');
    return number ? this.inserter.around(statement, `{${number}`, '}') : nothing;
  }

  /** Inserts this in a function; a body without braces gets them. */
  startFunction(/** @type {Scope} */ scope, /** @type {FunctionNode} */ node) {
    const { body, params, start } = node;
    const number = this.declaration(scope, 'var', start, this.nameOfFunction(node));
    if (body.type === 'BlockStatement') {
      const text = number + this.noteOfMade(node) + this.readsOfParameters(node);
      if (text) this.inserter.insert(startOfStatements(body), `;${text}`);
      return nothing;
    }
    if (!number) return nothing;
    this.inserter.insert(this.inserter.endOfToken(params.length ? params[params.length - 1].end : start, '=>'), `{${number}return(`);
    return () => this.inserter.insert(node.end, ')}');
  }

  /** The call that notes the object which a call by `new` makes for a function. */
  noteOfMade(/** @type {FunctionNode} */ node) {
    return node.usesThis && !node.isMethod && !node.async && !node.generator ? `new.target&&__er.N(this,${this.site(node.start, { object: [node.start, node.start] })});` : '';
  }

  /** The calls that report what the patterns of a function's parameters take of its arguments. */
  readsOfParameters(/** @type {FunctionNode} */ _node) {
    return '';
  }

  // ---- values that are not used

  ExpressionStatement(/** @type {import('../syntax/types').ExpressionStatement} */ node, /** @type {Scope} */ scope) {
    this.noteUnused(node.expression);
    super.ExpressionStatement(node, scope);
  }

  /**
   * If the value of an expression is not used, those of its branches are not either: minified files have branches for `if` and `else`.
   * @param {Expression} node
   */
  noteUnused(node) {
    this.unused.add(node);
    if (node.type === 'ConditionalExpression') {
      this.noteUnused(node.consequent);
      this.noteUnused(node.alternate);
    } else if (node.type === 'LogicalExpression') this.noteUnused(node.right);
    else if (node.type === 'SequenceExpression') this.noteUnused(node.expressions[node.expressions.length - 1]);
  }

  /** Of a list only the last expression has a value that may be used. */
  SequenceExpression(/** @type {import('../syntax/types').SequenceExpression} */ node, /** @type {Scope} */ scope) {
    node.expressions.slice(0, -1).forEach((expression) => this.noteUnused(expression));
    this.visitChildren(node, scope);
  }

  ForStatement(/** @type {import('../syntax/types').ForStatement} */ node, /** @type {Scope} */ scope) {
    if (node.update) this.noteUnused(node.update);
    super.ForStatement(node, scope);
  }

  /**
   * 'U' if an expression counts up or down, and its value is not used.
   * @param {UpdateExpression|AssignmentExpression} node
   */
  updateMode(node) {
    const isCount = node.type === 'UpdateExpression' || node.operator === '+=' || node.operator === '-=';
    return isCount && this.unused.has(node) ? 'U' : 'u';
  }

  // ---- first values

  /**
   * Whether the first value of a variable is reported. It comes before any function that uses it; but a `var` in a loop gets it again, and if the code
   * has waited, a function that was made before may have run in between.
   * @param {{name: string, start: number}} variable
   * @param {Expression} init
   * @param {Scope} scope
   * @param {DeclarationKind} kind
   */
  isReported({ name, start }, init, scope, kind) {
    const owner = this.variables.ownerIn(scope, name);
    if (!owner) return true;
    if (!owner.closure || owner.isHidden) return false;
    if (this.comesAgain(owner.closure, name, start, kind)) return true;
    return this.comesLate(owner.closure, init) && this.variables.isRecorded(owner, name);
  }

  /** A declaration with a value: a write of each captured variable that is reported, after its value is there. */
  visitInitializer(/** @type {Initialized} */ { id, init }, /** @type {Scope} */ scope, /** @type {DeclarationKind} */ kind) {
    const names = namesOfPattern(id);
    const reported = names.filter((name) => this.isReported({ name, start: id.start }, init, scope, kind));
    const close = id.type === 'Identifier'
      ? this.markFirst(id, init, scope, kind, reported.length > 0)
      : this.inserter.callsAfter(init, this.firstsOfPattern(names, reported, id.start, scope));
    this.visitTaken(id, init, scope);
    close();
  }

  /**
   * The first value of one variable: a write if it is reported, and the value of before if it is a `var`, which can have one.
   * @param {Identifier} id
   * @param {Expression} init
   * @param {Scope} scope
   * @param {DeclarationKind} kind
   * @param {boolean} isReported
   */
  markFirst(id, init, scope, kind, isReported) {
    const hasValue = isReported && kind === 'var' && this.variables.isOfScope(scope, id.name);
    const call = isReported ? this.variables.call('w', id.name, scope, id.start) : this.variables.callOfFirst(id.name, scope, id.start);
    return this.inserter.callAround(init, call, id.name, hasValue ? `,${id.name}` : '');
  }

  /**
   * The calls after a pattern, for each variable that it declares.
   * @param {string[]} names
   * @param {string[]} reported
   * @param {number} start
   * @param {Scope} scope
   */
  firstsOfPattern(names, reported, start, scope) {
    const writes = reported.map((name) => this.variables.access('w', name, scope, start));
    const firsts = names.filter((name) => !reported.includes(name)).map((name) => this.variables.callOfFirst(name, scope, start));
    return [...writes, ...firsts.map((call) => call && `${call})`)].filter(Boolean).join(',');
  }

  // ---- assignments

  /** A variable of a scope is reported with the value that it had: `n=1` becomes `n=call(scope,"n",site,1,n)`. */
  assignVariable(/** @type {AssignmentExpression} */ node, /** @type {Identifier} */ left, /** @type {Scope} */ scope) {
    const { right, operator } = node;
    const isLogical = LOGICAL.test(operator);
    const isOfScope = this.variables.isOfScope(scope, left.name);
    if (isOfScope && (operator === '=' || isLogical)) this.markWrite(node, left, scope, isLogical);
    else if (isOfScope && !this.isApart(node)) this.markUpdate(node, left, scope, () => this.visit(right, scope));
    else super.assignVariable(node, left, scope);
  }

  /**
   * A captured variable is assigned: the write is reported with the new value. `a ||= b` reads it first, and writes it only if `b` runs.
   * @param {AssignmentExpression} node
   * @param {Identifier} left
   * @param {Scope} scope
   * @param {boolean} isLogical
   */
  markWrite(node, { name, start }, scope, isLogical) {
    const read = isLogical && this.variables.access('r', name, scope, start);
    const finish = read ? this.inserter.callBefore(node, read) : nothing;
    const close = this.inserter.callAround(node.right, this.variables.call('w', name, scope, start), name, `,${name}`);
    this.visit(node.right, scope);
    close();
    finish();
  }

  /**
   * What reads a variable first is reported with its values before and after: `call(scope,"n",site,n,n++,n)`.
   * @param {UpdateExpression|AssignmentExpression} node
   * @param {Identifier} variable
   * @param {Scope} scope
   * @param {() => void} visit
   */
  markUpdate(node, { name, start }, scope, visit) {
    const finish = this.inserter.around(node, `${this.variables.call(this.updateMode(node), name, scope, start)},${name},`, `,${name})`);
    visit();
    finish();
  }

  updateVariable(/** @type {UpdateExpression} */ node, /** @type {Identifier} */ argument, /** @type {Scope} */ scope) {
    if (this.variables.isOfScope(scope, argument.name)) this.markUpdate(node, argument, scope, nothing);
    else super.updateVariable(node, argument, scope);
  }
}

module.exports = { ClosureMarks };
