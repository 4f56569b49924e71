'use strict';
// The walk through expressions, patterns, class fields and declarations of acorn's tree: what is visited in which order. Subclasses add scopes (walker.js) and
// what is done at a node.

const { keysOf, childAt } = require('../syntax/children.js');

/**
 * @typedef {import('../syntax/scopes').Scope} Scope
 * @typedef {import('../syntax/types').Node} Node
 * @typedef {import('../syntax/types').Expression} Expression
 * @typedef {import('../syntax/types').Pattern} Pattern
 * @typedef {import('../syntax/types').Identifier} Identifier
 * @typedef {import('../syntax/types').ObjectPattern} ObjectPattern
 * @typedef {import('../syntax/types').Property} Property
 * @typedef {import('../syntax/types').MemberExpression} MemberExpression
 * @typedef {import('../syntax/types').CallExpression} CallExpression
 * @typedef {import('../syntax/types').UnaryExpression} UnaryExpression
 * @typedef {import('../syntax/types').UpdateExpression} UpdateExpression
 * @typedef {import('../syntax/types').AssignmentExpression} AssignmentExpression
 * @typedef {import('../syntax/types').VariableDeclaration} VariableDeclaration
 * @typedef {import('../syntax/types').VariableDeclarator} VariableDeclarator
 * @typedef {import('../syntax/types').DeclarationKind} DeclarationKind
 * @typedef {'r'|'w'|'u'|'U'|'d'} Mode a read, a write, both, a count whose value is not used, and a `delete`
 * @typedef {VariableDeclarator & {init: Expression}} Initialized
 */

/**
 * The visitors of a walker, by the type of the node that each takes: no one type of a node fits all of them.
 * @typedef {{[type: string]: ((node: any, scope: Scope) => void) | undefined}} Visitors
 */

class ExpressionWalker {
  /**
   * Visits a node by the method of its type, else its children.
   * @param {Node} node
   * @param {Scope} scope
   */
  visit(node, scope) {
    const visitor = /** @type {Visitors} */ (/** @type {unknown} */ (this))[node.type];
    if (visitor === undefined) this.visitChildren(node, scope);
    else visitor.call(this, node, scope);
  }

  /**
   * Visits the nodes of a list, in which some can be missing. Called by instrument/insert/call-marks.js, instrument/insert/member-marks.js and walker.js.
   * @param {readonly (Node|null|undefined)[]} nodes
   * @param {Scope} scope
   */
  visitAll(nodes, scope) {
    for (let k = 0; k < nodes.length; k++) {
      const node = nodes[k];
      if (node) this.visit(node, scope);
    }
  }

  /**
   * Visits the children of a node, except one.
   * @param {Node} node
   * @param {Scope} scope
   * @param {Node|null} [skipped] a child
   */
  visitChildren(node, scope, skipped) {
    const keys = keysOf(node);
    for (let k = 0; k < keys.length; k++) {
      const child = childAt(node, keys[k]);
      if (Array.isArray(child)) this.visitAll(child, scope);
      else if (child && child !== skipped) this.visit(child, scope);
    }
  }

  // ---- expressions

  Literal() {}
  ThisExpression() {}
  TemplateElement() {}
  MetaProperty() {}

  /**
   * Visits the parts of a member.
   * @param {MemberExpression} node
   * @param {Scope} scope
   * @param {Mode} _mode
   */
  visitMember(node, scope, _mode) {
    this.visitChildren(node, scope, node.computed ? undefined : node.property);
  }

  MemberExpression(/** @type {MemberExpression} */ node, /** @type {Scope} */ scope) {
    this.visitMember(node, scope, 'r');
  }

  Property(/** @type {Property} */ node, /** @type {Scope} */ scope) {
    if (node.shorthand) this.visitShorthand(node, scope);
    else this.visitKeyAndValue(node, scope);
  }

  /** `{a}` */
  visitShorthand(/** @type {Property} */ _node, /** @type {Scope} */ _scope) {}

  /**
   * Visits the key, if it is in brackets, and the value.
   * @param {{key: Node, value: Node|null, computed: boolean}} node
   * @param {Scope} scope
   */
  visitKeyAndValue({ key, value, computed }, scope) {
    if (computed) this.visit(key, scope);
    if (value) this.visit(value, scope);
  }

  MethodDefinition(/** @type {import('../syntax/types').MethodDefinition} */ node, /** @type {Scope} */ scope) {
    this.visitKeyAndValue(node, scope);
  }

  PropertyDefinition(/** @type {import('../syntax/types').PropertyDefinition} */ node, /** @type {Scope} */ scope) {
    this.visitKeyAndValue(node, scope);
  }

  /** `eval` stays as it is: called by another name, it sees other variables. */
  CallExpression(/** @type {CallExpression} */ node, /** @type {Scope} */ scope) {
    const { callee } = node;
    const isEval = callee.type === 'Identifier' && callee.name === 'eval';
    this.visitChildren(node, scope, isEval ? callee : undefined);
  }

  /** `typeof a` and `delete a.b` are apart; `delete a` of a variable does nothing in most scripts, so it has no mark. */
  UnaryExpression(/** @type {UnaryExpression} */ node, /** @type {Scope} */ scope) {
    const { argument, operator } = node;
    if (argument.type === 'Identifier' && operator === 'typeof') this.visitTypeof(node, argument, scope);
    else if (argument.type === 'MemberExpression' && operator === 'delete') this.visitMember(argument, scope, 'd');
    else if (argument.type !== 'Identifier' || operator !== 'delete') this.visitChildren(node, scope);
  }

  /** `typeof a`, which reads `a` where there is one. */
  visitTypeof(/** @type {UnaryExpression} */ _node, /** @type {Identifier} */ _argument, /** @type {Scope} */ _scope) {}

  UpdateExpression(/** @type {UpdateExpression} */ node, /** @type {Scope} */ scope) {
    const { argument } = node;
    if (argument.type === 'MemberExpression') this.visitMember(argument, scope, 'u');
    else if (argument.type === 'Identifier') this.updateVariable(node, argument, scope);
    else this.visit(argument, scope); // as `f()++`, which fails when it runs
  }

  updateVariable(/** @type {UpdateExpression} */ _node, /** @type {Identifier} */ _argument, /** @type {Scope} */ _scope) {}

  // ---- assignments and declarations

  /** Declarations: only those with a value write. */
  visitDeclarations(/** @type {VariableDeclaration} */ node, /** @type {Scope} */ scope) {
    for (const declarator of node.declarations) {
      this.visitPattern(declarator.id, scope);
      if (declarator.init) this.visitInitializer(/** @type {Initialized} */ (declarator), scope, node.kind);
    }
  }

  /**
   * @param {Initialized} declarator
   * @param {Scope} scope
   * @param {DeclarationKind} _kind
   */
  visitInitializer({ init }, scope, _kind) {
    this.visit(init, scope);
  }

  VariableDeclaration(/** @type {VariableDeclaration} */ node, /** @type {Scope} */ scope) { this.visitDeclarations(node, scope); }

  AssignmentExpression(/** @type {AssignmentExpression} */ node, /** @type {Scope} */ scope) {
    const { left } = node;
    if (left.type === 'MemberExpression') this.assignMember(node, left, scope);
    else if (left.type === 'Identifier') this.assignVariable(node, left, scope);
    else this.assignPattern(node, scope);
  }

  assignMember(/** @type {AssignmentExpression} */ { right }, /** @type {MemberExpression} */ left, /** @type {Scope} */ scope) {
    this.visitMember(left, scope, 'w');
    this.visit(right, scope);
  }

  assignVariable(/** @type {AssignmentExpression} */ { right }, /** @type {Identifier} */ _left, /** @type {Scope} */ scope) {
    this.visit(right, scope);
  }

  assignPattern(/** @type {AssignmentExpression} */ { left, right }, /** @type {Scope} */ scope) {
    this.visitPattern(left, scope);
    this.visit(right, scope);
  }

  /**
   * A pattern that is assigned to: its names stay as they are; defaults, computed keys and members are visited. Called by instrument/insert/marks.js,
   * instrument/insert/value-marks.js and walker.js.
   * @param {Pattern|null} pattern
   * @param {Scope} scope
   */
  visitPattern(pattern, scope) {
    if (!pattern) return;
    switch (pattern.type) {
      case 'Identifier': break;
      case 'MemberExpression': this.visitMember(pattern, scope, 'w'); break;
      case 'AssignmentPattern': this.visitPattern(pattern.left, scope); this.visit(pattern.right, scope); break;
      case 'RestElement': this.visitPattern(pattern.argument, scope); break;
      case 'ArrayPattern': pattern.elements.forEach((element) => this.visitPattern(element, scope)); break;
      case 'ObjectPattern': pattern.properties.forEach((property) => this.visitPatternProperty(property, scope, pattern)); break;
      default: this.visit(pattern, scope); // as `f() = 1`, which fails when it runs
    }
  }

  /**
   * Visits a property of a pattern.
   * @param {ObjectPattern['properties'][number]} property
   * @param {Scope} scope
   * @param {ObjectPattern} _pattern
   */
  visitPatternProperty(property, scope, _pattern) {
    if (property.type === 'RestElement') {
      this.visitPattern(property, scope);
      return;
    }
    if (property.computed) this.visit(property.key, scope);
    this.visitPattern(property.value, scope);
  }

  // ---- modules

  ImportDeclaration() {}
  ExportAllDeclaration() {}

  ExportNamedDeclaration(/** @type {import('../syntax/types').ExportNamedDeclaration} */ node, /** @type {Scope} */ scope) {
    if (node.declaration) this.visit(node.declaration, scope);
  }

  ExportDefaultDeclaration(/** @type {import('../syntax/types').ExportDefaultDeclaration} */ node, /** @type {Scope} */ scope) {
    this.visit(node.declaration, scope);
  }
}

module.exports = { ExpressionWalker };
