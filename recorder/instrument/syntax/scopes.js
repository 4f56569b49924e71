'use strict';
// Scopes: which names a piece of JavaScript declares where. Blocks (`let`, `const`, `class`), functions (`var`, parameters, `arguments`), `catch`, modules, and
// `with`, in which any name may be a property.

const { addNames, addLexical, addHoisted, addNamesOfCode, declaresForBlock } = require('./names.js');

/**
 * @typedef {import('./types').Statement} Statement
 * @typedef {import('./types').FunctionNode} FunctionNode
 * @typedef {'local'|'global'|'module'|'unknown'} Where `module`: a variable of the module itself; `unknown`: inside a `with`
 */

/**
 * What the first walk finds of the variables of a scope (walk/look.js): which may change after a function has seen them.
 * @typedef {object} Closure
 * @property {Map<string, number>} captured by name, where the first function that uses the variable is made
 * @property {Map<string, number>} assigned by name, where the last value comes
 * @property {Map<string, number>} firsts by name, where the first value comes
 * @property {number} waited how often the code had waited where the scope starts
 * @property {Set<string>} recorded the variables that are marked
 * @property {string} label the variable that has the scope's number as it runs; '' where none is marked
 */

/** One scope. A dynamic one (`with`) may have any name. Made by instrument/walk/walker.js. */
class Scope {
  /**
   * @param {Scope|null} parent
   * @param {Iterable<string>} names
   */
  constructor(parent, names = [], dynamic = false) {
    this.parent = parent;
    this.names = new Set(names);
    this.dynamic = dynamic;
    /**
     * The scope of the code that contains it, as of a function; null at the top.
     * @type {Scope|null}
     */
    this.code = parent ? parent.code : null;
    /** Where the code of a function is made: 0 where it is there from the start. */
    this.madeAt = 0;
    /** Whether the head that declares its variables is walked through (the parameters of a function, the head of a loop): no access then. */
    this.isHidden = false;
    /**
     * The parameters of a function through which it gets the window.
     * @type {Set<string>|undefined}
     */
    this.windowNames = undefined;
    /** @type {Closure|null} */
    this.closure = null;
  }

  /**
   * The scope of a block: its parent's if the block declares nothing for itself. Called by instrument/walk/walker.js.
   * @param {Scope} parent
   * @param {Statement[]} statements
   */
  static ofBlock(parent, statements) {
    if (!statements.some(declaresForBlock)) return parent;
    const scope = new Scope(parent);
    addLexical(statements, scope.names);
    return scope;
  }

  /**
   * The scope of a function, with its parameters and what its code declares. Called by instrument/walk/walker.js.
   * @param {Scope} parent
   * @param {FunctionNode} node
   */
  static ofFunction(parent, node) {
    const scope = Scope.ofCode(parent);
    scope.madeAt = node.type === 'FunctionDeclaration' ? 0 : node.start;
    const { names } = scope;
    node.params.forEach((parameter) => addNames(parameter, names));
    if (node.type !== 'ArrowFunctionExpression') names.add('arguments');
    if (node.type === 'FunctionExpression') addNames(node.id, names);
    if (node.body.type === 'BlockStatement') addNamesOfCode(node.body.body, names);
    scope.windowNames = node.windowNames;
    return scope;
  }

  /**
   * The scope of code that runs apart from the code around it. Called by instrument/walk/walker.js.
   * @param {Scope} parent
   * @param {Iterable<string>} [names]
   */
  static ofCode(parent, names) {
    const scope = new Scope(parent, names);
    scope.code = scope;
    return scope;
  }

  /**
   * The scope of a static block of a class. Called by instrument/walk/walker.js.
   * @param {Scope} parent
   * @param {Statement[]} body
   */
  static ofStaticBlock(parent, body) {
    const scope = Scope.ofCode(parent);
    addNamesOfCode(body, scope.names);
    return scope;
  }

  /**
   * The scope that declares a name, or null if none does or a `with` is between. Called by instrument/insert/window-marks.js, instrument/walk/closures.js and
   * instrument/walk/variables.js.
   * @param {string} name
   * @returns {Scope|null}
   */
  ownerOf(name) {
    /** @type {Scope|null} */
    let scope = this;
    for (; scope && !scope.dynamic; scope = scope.parent) {
      if (scope.names.has(name)) return scope;
    }
    return null;
  }

  /**
   * Where a name is declared, seen from this scope; `unknown` inside a `with` statement, whose object may have the name: such names get no mark.
   * @param {string} name
   * @returns {Where}
   */
  where(name) {
    /** @type {Scope|null} */
    let scope = this;
    for (; scope; scope = scope.parent) {
      const found = scope.own(name);
      if (found) return found;
    }
    return 'global';
  }

  /**
   * Where a name is by this scope alone, or '' if it does not know the name.
   * @param {string} name
   * @returns {Where|''}
   */
  own(name) {
    if (this.dynamic) return 'unknown';
    return this.names.has(name) ? 'local' : '';
  }
}

/** The scope of a module: what it imports is local, what it declares is `module`. */
class ModuleScope extends Scope {
  /** @param {import('./types').Program} program */
  constructor({ body }) {
    super(null);
    /** @type {Set<string>} */
    this.declared = new Set();
    for (const statement of body) {
      if (statement.type === 'ImportDeclaration') statement.specifiers.forEach(({ local }) => this.names.add(local.name));
    }
    const declarations = body.map((statement) => declarationOf(statement));
    declarations.forEach((declaration) => addHoisted(declaration, this.declared));
    addLexical(declarations, this.declared);
  }

  /**
   * @param {string} name
   * @returns {Where|''}
   */
  own(name) {
    if (this.names.has(name)) return 'local';
    return this.declared.has(name) ? 'module' : '';
  }
}

/**
 * What a statement of a module exports as it declares it, else the statement.
 * @param {Statement} statement
 * @returns {Statement}
 */
function declarationOf(statement) {
  const isExport = statement.type === 'ExportNamedDeclaration' || statement.type === 'ExportDefaultDeclaration';
  return /** @type {Statement} */ (isExport && statement.declaration || statement);
}

/**
 * The scope of the top of a text. Called by instrument/instrument.js.
 * @param {import('./types').Program} program
 * @param {import('./types').KindOfCode} kind
 * @returns {Scope}
 */
function topScope(program, kind) {
  if (kind === 'module') return new ModuleScope(program);
  const scope = new Scope(null);
  if (kind === 'handler') {
    program.body.forEach((statement) => addHoisted(statement, scope.names));
    addLexical(program.body, scope.names);
  }
  return scope;
}

/**
 * The scope that a node starts, made when it is first asked for: two walks have the same scopes. Called by instrument/walk/walker.js.
 * @template {{scope?: Scope}} T
 * @param {T} node
 * @param {() => Scope} make
 * @returns {Scope}
 */
function scopeOf(node, make) {
  node.scope = node.scope || make();
  return node.scope;
}

module.exports = { Scope, topScope, scopeOf };
