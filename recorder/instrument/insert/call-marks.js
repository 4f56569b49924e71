'use strict';
// Marks calls, spreads and literals: what a method of an array, a map or an element touches, and what `Object.keys` and others read of their arguments. Methods
// such as `push`, `sort` and `Map.set`, spread arguments (`f(...list)`), array and object literals, tagged templates.

const { quote } = require('../marks/quote.js');
const { nothing } = require('../walk/walker.js');
const { isNamedSuper, mayEndBefore, FRESH } = require('./member-marks.js');
const { ValueMarks } = require('./value-marks.js');

/**
 * @typedef {import('../syntax/scopes').Scope} Scope
 * @typedef {import('../syntax/types').Node} Node
 * @typedef {import('../syntax/types').Argument} Argument
 * @typedef {import('../syntax/types').Expression} Expression
 * @typedef {import('../syntax/types').CallExpression} CallExpression
 * @typedef {import('../syntax/types').MemberExpression} MemberExpression
 */

/** Methods that may be those of an array, a map, a set or an element: what they touch is more than their own name. */
const METHODS = new Set(['push', 'pop', 'shift', 'unshift', 'splice', 'sort', 'reverse', 'fill', 'copyWithin',
  'forEach', 'map', 'filter', 'some', 'every', 'find', 'findIndex', 'findLast', 'findLastIndex', 'indexOf', 'lastIndexOf', 'includes', 'join',
  'slice', 'concat', 'reduce', 'reduceRight', 'flat', 'flatMap', 'entries', 'keys', 'values', 'at', 'toSorted', 'toReversed', 'toSpliced', 'with',
  'get', 'set', 'has', 'delete', 'add', 'clear',
  'appendChild', 'insertBefore', 'removeChild', 'replaceChild', 'append', 'prepend', 'replaceChildren', 'hasChildNodes',
  'getAttribute', 'getAttributeNode', 'hasAttribute', 'setAttribute', 'removeAttribute', 'toggleAttribute', 'getAttributeNames', 'hasAttributes', 'contains', 'toggle',
  'cloneNode', 'getHTML', 'getPropertyValue', 'getPropertyPriority', 'setProperty', 'removeProperty']);
/** Those whose first argument is a key. */
const KEYED_METHODS = new Set(['get', 'set', 'has', 'delete', 'add', 'getAttribute', 'getAttributeNode', 'hasAttribute', 'setAttribute', 'removeAttribute', 'toggleAttribute',
  'cloneNode', 'getPropertyValue', 'getPropertyPriority', 'setProperty', 'removeProperty']);
/** Methods that read their first argument, an element, with all that is in it. */
const COPIES = new Set(['importNode', 'serializeToString']);
/** Functions of the browser that read their first argument as a whole (`Object.keys` and others), and the helpers for that. */
const READERS = new Map([['keys', 'n'], ['getOwnPropertyNames', 'n'], ['ownKeys', 'n'], ['values', 'e'], ['entries', 'e'], ['from', 'i'], ['fromEntries', 'i'],
  ['stringify', 'e']]);
/** Those whose second argument is a key of the first, and the helpers for that. */
const KEYED_TOOLS = new Map([['get', 'k'], ['has', 'k'], ['set', 'l'], ['deleteProperty', 'h'], ['hasOwn', 'k'], ['defineProperty', 'l'],
  ['getOwnPropertyDescriptor', 'k']]);
/** Those that write in their first argument what the others have, and the helpers for that. */
const COPIERS = new Map([['assign', 'c'], ['defineProperties', 'D']]);
/** Methods whose first argument is a name of the object. */
const ASKS_FOR_NAME = new Set(['hasOwnProperty', 'propertyIsEnumerable']);
/** Functions that are borrowed to ask an object for a name of its own. */
const ASKS_FOR_OWN = /^(has(Own|OwnProp|OwnProperty)|propertyIsEnumerable)$/;

/** The name of a member that is written with a dot, or ''. */
const nameOf = (/** @type {MemberExpression} */ { computed, property }) => (computed || property.type !== 'Identifier' ? '' : property.name);

/**
 * The name of the method that `[].slice.call` and `Array.prototype.slice.call` borrow, or ''.
 * @param {MemberExpression} callee
 */
function borrowedOfArray({ object }) {
  if (object.type !== 'MemberExpression' || object.computed) return '';
  const { object: owner } = object;
  const isLiteral = owner.type === 'ArrayExpression' && !owner.elements.length;
  const isPrototype = owner.type === 'MemberExpression' && nameOf(owner) === 'prototype' && owner.object.type === 'Identifier' && owner.object.name === 'Array';
  return isLiteral || isPrototype ? nameOf(object) : '';
}

/**
 * Whether an argument is there, and is one value.
 * @param {Argument|undefined} node
 * @returns {node is Expression}
 */
const isValue = (node) => node !== undefined && node.type !== 'SpreadElement';

/** Made by instrument/instrument.js. */
class CallMarks extends ValueMarks {
  /**
   * Only the callee's object and the arguments get marks, so `this` stays, and `a?.m()` ends as before. What of a chain is not marked: `isLeftOut` and
   * `mayEndBefore` of member-marks.js, which also marks a callee that is no method of METHODS, as any member.
   */
  CallExpression(/** @type {CallExpression} */ node, /** @type {Scope} */ scope) {
    const { callee } = node;
    if (callee.type !== 'MemberExpression') super.CallExpression(node, scope);
    else if (callee.object.type === 'Super') this.callSuper(node, callee, scope);
    else if (METHODS.has(nameOf(callee)) && !this.isLeftOut(callee, scope) && !mayEndBefore(callee.object)) this.callMethod(node, callee, scope);
    else if (ASKS_FOR_NAME.has(nameOf(callee)) && isValue(node.arguments[0]) && !FRESH.has(callee.object.type) && !mayEndBefore(callee.object)) this.callAsking(node, callee, scope);
    else {
      this.visit(callee, scope);
      const close = this.markMaking(node, scope);
      const closePosting = this.markPosting(node);
      this.visitArguments(node, callee, scope);
      closePosting();
      close();
    }
  }

  /**
   * `a.b.hasOwnProperty(key)`: the object is kept for the mark of the key.
   * @param {CallExpression} node
   * @param {MemberExpression} callee
   * @param {Scope} scope
   */
  callAsking(node, callee, scope) {
    const isSimple = this.isSimple(callee.object, scope);
    const close = isSimple ? nothing : this.inserter.wrap(callee.object, '(__er.t=', ')');
    this.visit(callee, scope);
    close();
    this.visitKey(node.arguments, 0, callee.object, scope, 'k', isSimple ? this.inserter.textOf(callee.object) : '__er.t');
  }

  /**
   * `super.f()` calls with `this`, so a mark can only be before the whole; not if the call may end a chain.
   * @param {CallExpression} node
   * @param {MemberExpression} callee
   * @param {Scope} scope
   */
  callSuper(node, callee, scope) {
    const close = !callee.computed && !node.optional ? this.inserter.callBefore(node, this.readOfSuper(callee)) : nothing;
    this.visitMember(callee, scope, 'r');
    this.visitAll(node.arguments, scope);
    close();
  }

  TaggedTemplateExpression(/** @type {import('../syntax/types').TaggedTemplateExpression} */ node, /** @type {Scope} */ scope) {
    const { tag, quasi } = node;
    const close = isNamedSuper(tag) ? this.inserter.callBefore(node, this.readOfSuper(tag)) : nothing;
    if (tag.type === 'MemberExpression' && tag.object.type === 'Super') this.visitMember(tag, scope, 'r');
    else this.visit(tag, scope);
    this.visit(quasi, scope);
    close();
  }

  /**
   * A method that may be one of an array, a map, a set or an element: its first argument may be a key.
   * @param {CallExpression} node
   * @param {MemberExpression} callee
   * @param {Scope} scope
   */
  callMethod(node, callee, scope) {
    const [first, ...rest] = node.arguments;
    const name = nameOf(callee);
    const isKeyed = KEYED_METHODS.has(name) && isValue(first);
    const close = isKeyed ? this.inserter.wrap(callee.object, '(__er.t=', ')') : nothing;
    this.markNamed(callee, scope, 'm', quote(name));
    close();
    if (isKeyed) this.visitWrapped(first, scope, '__er.a(__er.t,', `,${this.siteAt(first, callee.object)},${quote(name)})`);
    else if (first) this.visit(first, scope);
    this.visitAll(rest, scope);
  }

  // ---- what the arguments of a call are read for

  /**
   * The arguments of a call: some functions of JavaScript take whole objects or keys of them (`hasOwnProperty`, `Object.keys`, `call`).
   * @param {CallExpression} node
   * @param {MemberExpression} callee
   * @param {Scope} scope
   */
  visitArguments({ arguments: args }, callee, scope) {
    const name = nameOf(callee);
    if (name === 'call') this.visitBorrowed(args, callee, scope);
    else if (COPIES.has(name) && isValue(args[0])) {
      this.visitWrapped(args[0], scope, '__er.m(', `,${quote(name)},${this.siteOfWhole(args[0])})`);
      this.visitAll(args.slice(1), scope);
    }
    else if (this.isTool(callee, scope)) this.visitArgumentsOfTool(args, name, scope);
    else this.visitAll(args, scope);
  }

  /**
   * A key among the arguments of a call.
   * @param {Argument[]} args
   * @param {number} at
   * @param {Node} object
   * @param {Scope} scope
   * @param {string} helper
   * @param {string} text how the mark reads the object
   */
  visitKey(args, at, object, scope, helper, text) {
    args.forEach((arg, k) => {
      if (k === at && isValue(arg)) this.visitWrapped(arg, scope, `__er.${helper}(${text},`, `,${this.siteAt(arg, object)})`);
      else this.visit(arg, scope);
    });
  }

  /**
   * A call whose first argument is an object, and whose second one is a key of it.
   * @param {Argument[]} args
   * @param {Scope} scope
   * @param {string} helper
   */
  visitObjectAndKey([first, ...rest], scope, helper) {
    if (!isValue(first)) this.visitAll([first, ...rest], scope);
    else this.visitKey(rest, 0, first, scope, helper, this.visitKept(first, scope));
  }

  /**
   * `[].slice.call(list)` and `has.call(object, key)`.
   * @param {Argument[]} args
   * @param {MemberExpression} callee
   * @param {Scope} scope
   */
  visitBorrowed(args, callee, scope) {
    const [first, ...rest] = args;
    const method = borrowedOfArray(callee);
    const { object } = callee;
    const borrowed = object.type === 'MemberExpression' ? nameOf(object) : object.type === 'Identifier' ? object.name : '';
    if (isValue(first) && METHODS.has(method)) {
      this.visitWrapped(first, scope, '__er.m(', `,${quote(method)},${this.siteOfWhole(first)})`);
      this.visitAll(rest, scope);
    } else if (rest.length && ASKS_FOR_OWN.test(borrowed)) this.visitObjectAndKey(args, scope, 'k');
    else this.visitAll(args, scope);
  }

  isTool(/** @type {MemberExpression} */ { object }, /** @type {Scope} */ scope) {
    return object.type === 'Identifier' && /^(Object|Reflect|JSON|Array)$/.test(object.name) && scope.where(object.name) === 'global';
  }

  /**
   * The arguments of a function of `Object`, `Reflect`, `JSON` or `Array` that reads or writes one of them.
   * @param {Argument[]} args
   * @param {string} name
   * @param {Scope} scope
   */
  visitArgumentsOfTool(args, name, scope) {
    const [first, ...rest] = args;
    const reader = READERS.get(name);
    const keyed = KEYED_TOOLS.get(name);
    const copier = COPIERS.get(name);
    if (reader && isValue(first)) {
      this.visitWrapped(first, scope, `__er.${reader}(`, `,${this.siteOfWhole(first)})`);
      this.visitAll(rest, scope);
    } else if (copier && rest.length && isValue(first)) this.visitCopied(first, rest, scope, copier);
    else if (keyed && rest.length) this.visitObjectAndKey(args, scope, keyed);
    else this.visitAll(args, scope);
  }

  /**
   * The mark of each source has the target, and keeps it for that of the next one. A list of sources (`...all`) may change what is kept.
   * @param {Expression} target
   * @param {Argument[]} sources
   * @param {Scope} scope
   * @param {string} helper
   */
  visitCopied(target, sources, scope, helper) {
    const isFresh = FRESH.has(target.type);
    let text = isFresh ? 'null' : this.visitKept(target, scope);
    if (isFresh) this.visit(target, scope);
    for (const source of sources) {
      if (isValue(source)) this.visitWrapped(source, scope, `__er.${helper}(${text},`, `,${this.siteAt(source, target)})`);
      else {
        this.visit(source, scope);
        if (text === '__er.t') text = 'null';
      }
    }
  }

  // ---- spreads and literals

  SpreadElement(/** @type {import('../syntax/types').SpreadElement} */ { argument }, /** @type {Scope} */ scope) {
    this.visitWrapped(argument, scope, '__er.i(', `,${this.siteOfWhole(argument)})`);
  }

  ObjectExpression(/** @type {import('../syntax/types').ObjectExpression} */ node, /** @type {Scope} */ scope) {
    const close = this.markLiteral(node);
    for (const property of node.properties) {
      if (property.type !== 'SpreadElement') this.visit(property, scope);
      else this.visitWrapped(property.argument, scope, '__er.e(', `,${this.siteOfWhole(property.argument)})`);
    }
    close();
  }

  ArrayExpression(/** @type {import('../syntax/types').ArrayExpression} */ node, /** @type {Scope} */ scope) {
    const close = this.markLiteral(node);
    this.visitChildren(node, scope);
    close();
  }

  /** A whole recording (`--keep`) has what is in a literal. */
  markLiteral(/** @type {Node} */ node) {
    return this.options.keepsAll ? this.inserter.wrap(node, '__er.L(', `,${this.siteOfWhole(node)})`) : nothing;
  }
}

module.exports = { CallMarks };
