'use strict';
// The walk that inserts something into a text: after each statement that ends without a semicolon there is one, since a mark may follow. Without it, automatic
// semicolon insertion (ASI) would read the mark as a part of the statement.

const { Inserter } = require('./inserter.js');
const { Walker } = require('../walk/walker.js');

/**
 * @typedef {import('../syntax/scopes').Scope} Scope
 * @typedef {import('../syntax/types').Node} Node
 */

/** Extended by marks.js. */
class StatementMarks extends Walker {
  /**
   * @param {string} code
   * @param {boolean} waits whether the code at the top may wait
   */
  constructor(code, waits) {
    super(waits);
    this.inserter = new Inserter(code);
  }

  VariableDeclaration(/** @type {import('../syntax/types').VariableDeclaration} */ node, /** @type {Scope} */ scope) {
    super.VariableDeclaration(node, scope);
    this.inserter.endStatement(node);
  }

  ExpressionStatement(/** @type {import('../syntax/types').ExpressionStatement} */ node, /** @type {Scope} */ scope) {
    super.ExpressionStatement(node, scope);
    this.inserter.endStatement(node);
  }

  visitStatement(/** @type {Node} */ node, /** @type {Scope} */ scope) {
    this.visitChildren(node, scope);
    this.inserter.endStatement(node);
  }

  ReturnStatement(/** @type {Node} */ node, /** @type {Scope} */ scope) { this.visitStatement(node, scope); }
  ThrowStatement(/** @type {Node} */ node, /** @type {Scope} */ scope) { this.visitStatement(node, scope); }
  BreakStatement(/** @type {Node} */ node) { this.inserter.endStatement(node); }
  ContinueStatement(/** @type {Node} */ node) { this.inserter.endStatement(node); }
  DebuggerStatement(/** @type {Node} */ node) { this.inserter.endStatement(node); }

  DoWhileStatement(/** @type {import('../syntax/types').DoWhileStatement} */ node, /** @type {Scope} */ scope) {
    super.DoWhileStatement(node, scope);
    this.inserter.endStatement(node);
  }

  ExportDefaultDeclaration(/** @type {import('../syntax/types').ExportDefaultDeclaration} */ node, /** @type {Scope} */ scope) {
    super.ExportDefaultDeclaration(node, scope);
    if (!/Declaration$/.test(node.declaration.type)) this.inserter.endStatement(node);
  }
}

module.exports = { StatementMarks };
