'use strict';
// The walk that inserts marks at global variables (page/helpers/globals.js) and at those of a module: reads, assignments, updates (`a++`), `typeof a`, functions'
// names, `await`, `import()`, `eval`. Members and closures: the subclasses in closure-marks.js, member-marks.js, value-marks.js, window-marks.js.

const { mayWait, isFunction } = require('../syntax/children.js');
const { namesOfPattern } = require('../syntax/names.js');
const { startOfStatements } = require('./inserter.js');
const { StatementMarks } = require('./statement-marks.js');
const { nothing } = require('../walk/walker.js');

/**
 * @typedef {import('../syntax/scopes').Scope} Scope
 * @typedef {import('../syntax/types').Node} Node
 * @typedef {import('../syntax/types').Expression} Expression
 * @typedef {import('../syntax/types').FunctionNode} FunctionNode
 * @typedef {import('../syntax/types').Identifier} Identifier
 * @typedef {import('../syntax/types').MemberExpression} MemberExpression
 * @typedef {import('../syntax/types').CallExpression} CallExpression
 * @typedef {import('../syntax/types').NewExpression} NewExpression
 * @typedef {import('../syntax/types').UpdateExpression} UpdateExpression
 * @typedef {import('../syntax/types').AssignmentExpression} AssignmentExpression
 * @typedef {import('../syntax/types').DeclarationKind} DeclarationKind
 * @typedef {import('../walk/expressions').Initialized} Initialized
 */

/** Assignments that do not always happen. */
const LOGICAL = /^(\|\||&&|\?\?)=$/;

/** The variable in which a function keeps who asked for what it waits for. */
const KEPT = '__er_w';

/** The name of a property that is known from the text alone, else null. */
function knownProperty(/** @type {MemberExpression} */ { computed, property }) {
  if (!computed) return property.type === 'Identifier' ? property.name : null;
  return property.type === 'Literal' && typeof property.value === 'string' ? property.value : null;
}

/**
 * Whether a call is one of `postMessage`, also by `call` or `apply`.
 * @param {Node} callee
 * @returns {boolean}
 */
function isPosting(callee) {
  if (callee.type === 'Identifier') return callee.name === 'postMessage';
  if (callee.type !== 'MemberExpression') return false;
  const name = knownProperty(callee);
  return name === 'postMessage' || ((name === 'call' || name === 'apply') && isPosting(callee.object));
}

/** Names by which code has the window. */
const WINDOWS = new Set(['window', 'self', 'globalThis', 'top', 'parent', 'frames']);

/**
 * Whether a call makes code of a text: of `eval` or `Function`, also as `(0, eval)(x)` and `window.eval(x)`.
 * @param {Node} callee
 * @param {Scope} scope
 * @returns {boolean}
 */
function isMaking(callee, scope) {
  const isMaker = (/** @type {string|null} */ name) => name === 'eval' || name === 'Function';
  if (callee.type === 'SequenceExpression') return isMaking(callee.expressions[callee.expressions.length - 1], scope);
  if (callee.type === 'Identifier') return isMaker(callee.name) && scope.where(callee.name) !== 'local';
  return callee.type === 'MemberExpression' && isMaker(knownProperty(callee)) && callee.object.type === 'Identifier' && WINDOWS.has(callee.object.name);
}

class Marks extends StatementMarks {
  /**
   * @param {string} code
   * @param {import('../syntax/types').Options} options
   * @param {import('../walk/variables').Variables} variables
   */
  constructor(code, options, variables) {
    super(code, options.kind === 'module');
    this.options = options;
    this.variables = variables;
    /**
     * Whether the function or module that is walked through keeps who asked for what it waits for.
     * @type {'module'|'function'|null}
     */
    this.keeps = options.kind === 'module' ? 'module' : null;
    /**
     * The names that functions without one have from where they are.
     * @type {Map<Node, string>}
     */
    this.namesOf = new Map();
  }

  /**
   * Makes a site: the number by which a mark says where it is.
   * @param {number} offset
   * @param {import('../syntax/types').About} [about]
   */
  site(offset, about) {
    return this.options.site(offset, about);
  }

  // ---- functions and classes

  /**
   * A function that a variable or a property gets is known by its name.
   * @param {Node|null} node
   * @param {string|null|undefined} name
   */
  nameFunction(node, name) {
    if (node && name && isFunction(node)) this.namesOf.set(node, name);
  }

  nameOfFunction(/** @type {FunctionNode} */ node) {
    return node.id?.name || this.namesOf.get(node) || '';
  }

  /** A function that waits keeps in a variable who asked. */
  visitFunction(/** @type {FunctionNode} */ node, /** @type {Scope} */ scope) {
    const { keeps } = this;
    const { body } = node;
    this.keeps = null;
    if (node.async && body.type === 'BlockStatement' && mayWait(body)) {
      this.keeps = 'function';
      this.inserter.insert(startOfStatements(body), `;var ${KEPT};`);
    }
    const name = this.nameOfFunction(node);
    if (name) this.options.named?.(node.start, node.end, name);
    this.inserter.noteDelimiters(node);
    super.visitFunction(node, scope);
    this.keeps = keeps;
  }

  visitClass(/** @type {import('../syntax/types').ClassNode} */ node, /** @type {Scope} */ scope) {
    this.inserter.noteDelimiters(node);
    super.visitClass(node, scope);
  }

  visitKeyAndValue(/** @type {{key: Node, value: Node|null, computed: boolean}} */ node, /** @type {Scope} */ scope) {
    const { key } = node;
    if (!node.computed && (key.type === 'Identifier' || key.type === 'PrivateIdentifier')) this.nameFunction(node.value, key.name);
    super.visitKeyAndValue(node, scope);
  }

  PropertyDefinition(/** @type {import('../syntax/types').PropertyDefinition} */ node, /** @type {Scope} */ scope) {
    super.visitKeyAndValue(node, scope);
  }

  // ---- reads and updates

  Identifier(/** @type {Identifier} */ node, /** @type {Scope} */ scope) {
    const read = this.variables.access('r', node.name, scope, node.start);
    if (read) this.inserter.callBefore(node, read)();
  }

  visitShorthand(/** @type {import('../syntax/types').Property} */ node, /** @type {Scope} */ scope) {
    const { name } = /** @type {Identifier} */ (node.key);
    const read = this.variables.access('r', name, scope, node.start);
    if (read) this.inserter.insert(node.end, `:(${read},${name})`);
  }

  visitTypeof(/** @type {Node} */ node, /** @type {Identifier} */ argument, /** @type {Scope} */ scope) {
    const read = this.variables.access('r', argument.name, scope, argument.start);
    if (read) this.inserter.callBefore(node, read)();
  }

  /**
   * How an expression changes what it reads.
   * @param {UpdateExpression|AssignmentExpression} _node
   * @returns {'u'|'U'}
   */
  updateMode(_node) {
    return 'u';
  }

  updateVariable(/** @type {UpdateExpression} */ node, /** @type {Identifier} */ argument, /** @type {Scope} */ scope) {
    const change = node.prefix ? '' : node.operator === '++' ? ',1' : ',-1';
    this.inserter.callAround(node, this.variables.call(this.updateMode(node), argument.name, scope, argument.start), '', change)();
  }

  UpdateExpression(/** @type {UpdateExpression} */ node, /** @type {Scope} */ scope) {
    const { argument } = node;
    if (argument.type === 'MemberExpression') this.visitMember(argument, scope, this.updateMode(node));
    else super.UpdateExpression(node, scope);
  }

  // ---- assignments and declarations

  AssignmentExpression(/** @type {AssignmentExpression} */ node, /** @type {Scope} */ scope) {
    const { left, right } = node;
    if (left.type === 'MemberExpression') this.nameFunction(right, knownProperty(left));
    else if (left.type === 'Identifier') this.nameFunction(right, left.name);
    super.AssignmentExpression(node, scope);
  }

  /** Whether the write may come in another action than the read, or not at all. Called by closure-marks.js, value-marks.js and window-marks.js. */
  isApart(/** @type {AssignmentExpression} */ { operator, right }) {
    return LOGICAL.test(operator) || (operator !== '=' && this.waits && mayWait(right));
  }

  /** A write is reported when it has happened: the value may be waited for, and an error comes in its place. */
  assignVariable(/** @type {AssignmentExpression} */ node, /** @type {Identifier} */ left, /** @type {Scope} */ scope) {
    const { right, operator } = node;
    const isApart = this.isApart(node);
    const read = isApart && this.variables.access('r', left.name, scope, left.start);
    const write = this.variables.call(isApart || operator === '=' ? 'w' : this.updateMode(node), left.name, scope, left.start);
    const finish = read ? this.inserter.callBefore(node, read) : nothing;
    const isOfValue = LOGICAL.test(operator);
    const close = this.inserter.callAround(isOfValue ? right : node, write, isOfValue ? left.name : '');
    this.visit(right, scope);
    close();
    finish();
  }

  assignPattern(/** @type {AssignmentExpression} */ node, /** @type {Scope} */ scope) {
    const { left, right } = node;
    const finish = this.inserter.callsAfter(node, this.variables.writesAfter(namesOfPattern(left), scope, left.start));
    this.visitPattern(left, scope);
    this.visitTaken(left, right, scope);
    finish();
  }

  /**
   * A value that a pattern may take apart.
   * @param {import('../syntax/types').Pattern} _pattern
   * @param {Expression} value
   * @param {Scope} scope
   */
  visitTaken(_pattern, value, scope) {
    this.visit(value, scope);
  }

  visitDeclarations(/** @type {import('../syntax/types').VariableDeclaration} */ node, /** @type {Scope} */ scope) {
    for (const { id, init } of node.declarations) {
      if (id.type === 'Identifier') this.nameFunction(init, id.name);
    }
    super.visitDeclarations(node, scope);
  }

  /** `var x = f()` becomes `var x = write(f())`; the names of a pattern are reported when the value that it takes apart is there. */
  visitInitializer(/** @type {Initialized} */ { id, init }, /** @type {Scope} */ scope, /** @type {DeclarationKind} */ _kind) {
    const close = id.type === 'Identifier'
      ? this.inserter.callAround(init, this.variables.call('w', id.name, scope, id.start), id.name)
      : this.inserter.callsAfter(init, this.variables.writesAfter(namesOfPattern(id), scope, id.start));
    this.visitTaken(id, init, scope);
    close();
  }

  callsAfter(/** @type {string[]} */ names, /** @type {Scope} */ scope, /** @type {number} */ offset) {
    return this.variables.writesAfter(names, scope, offset);
  }

  /** The body of a loop, with calls at the start of each turn. */
  visitBody(/** @type {import('../walk/walker').Loop} */ loop, /** @type {Scope} */ scope, /** @type {boolean} */ hasTurns, /** @type {string} */ calls) {
    const finish = calls ? this.inserter.around(loop.body, `{${calls};`, '}') : nothing;
    super.visitBody(loop, scope, hasTurns, calls);
    finish();
  }

  // ---- code that is made or asked for

  CallExpression(/** @type {CallExpression} */ node, /** @type {Scope} */ scope) {
    const close = this.markMaking(node, scope);
    const closePosting = this.markPosting(node);
    super.CallExpression(node, scope);
    closePosting();
    close();
  }

  NewExpression(/** @type {NewExpression} */ node, /** @type {Scope} */ scope) {
    const close = this.markMaking(node, scope);
    this.visitChildren(node, scope);
    close();
  }

  /** Code that is made of a text has no marks: that there is such code is reported. Called by member-marks.js. */
  markMaking(/** @type {CallExpression|NewExpression} */ { callee, arguments: args }, /** @type {Scope} */ scope) {
    const last = args[args.length - 1];
    return isMaking(callee, scope) && last && last.type !== 'SpreadElement' ? this.inserter.wrap(last, '__er.made(', ')') : nothing;
  }

  /** Names in a `with` have no marks. */
  WithStatement(/** @type {import('../syntax/types').WithStatement} */ node, /** @type {Scope} */ scope) {
    const close = this.inserter.wrap(node.object, '__er.un(', ')');
    super.WithStatement(node, scope);
    close();
  }

  /**
   * `w.postMessage(x)` becomes `w.postMessage(call(x))`: the last argument says which window's code posts, directly before the call. Called by call-marks.js.
   * @param {CallExpression} node
   */
  markPosting({ callee, arguments: args }) {
    const last = args[args.length - 1];
    if (!last || !isPosting(callee)) return nothing;
    return this.inserter.wrap(last.type === 'SpreadElement' ? last.argument : last, '__er.po(', ')');
  }

  /** `import(x)` becomes `call(import(call(x)))`, so that the run of the module, and what waits for it, are known to be asked for here. */
  ImportExpression(/** @type {import('../syntax/types').ImportExpression} */ node, /** @type {Scope} */ scope) {
    const base = this.options.kind === 'module' ? ',import.meta.url' : '';
    this.inserter.insert(node.start, '__er.ap(');
    this.inserter.insert(node.source.start, '__er.ai(');
    this.visitChildren(node, scope);
    this.inserter.insert(node.source.end, `,${this.site(node.start)}${base})`);
    this.inserter.insert(node.end, ')');
  }

  /**
   * `await x` becomes `goesOn(await noted(x,kept=asks()),kept)`: what goes on is known to have been asked for here. What a function keeps is in a variable
   * of its own; an arrow function whose body is no block has none.
   */
  AwaitExpression(/** @type {import('../syntax/types').AwaitExpression} */ node, /** @type {Scope} */ scope) {
    if (!this.keeps) {
      super.AwaitExpression(node, scope);
      return;
    }
    const { argument } = node;
    this.inserter.insert(node.start, '__er.ao(');
    const isList = argument.type === 'SequenceExpression';
    this.inserter.insert(argument.start, isList ? '__er.aw((' : '__er.aw(');
    super.AwaitExpression(node, scope);
    this.inserter.insert(argument.end, `${isList ? ')' : ''},${KEPT}=__er.as(${this.site(node.start)}${this.keeps === 'module' ? ',1' : ''}))`);
    this.inserter.insert(node.end, `,${KEPT})`);
  }
}

module.exports = { Marks, knownProperty, KEPT, LOGICAL };
