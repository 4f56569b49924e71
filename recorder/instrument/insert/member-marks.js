'use strict';
// Marks properties of objects and elements of arrays too. A mark is around the object, the key or the value of an access that stays as it is: `a.b`
// becomes `call(a).b`, and `a[k]` becomes `a[call(a,k)]`. So what the page's code does, and in which order, does not change: getters, proxies, `this` and
// errors are its own. Optional chaining (`a?.b`, also the member of a call, `a?.m()`; methods as `get`: call-marks.js), `super.a`, private members (`#a`), `key in object`, `a[k]++`.

const { quote } = require('../marks/quote.js');
const { nothing } = require('../walk/walker.js');
const { ClosureMarks } = require('./closure-marks.js');

/**
 * @typedef {import('../syntax/scopes').Scope} Scope
 * @typedef {import('../syntax/types').Node} Node
 * @typedef {import('../syntax/types').MemberExpression} MemberExpression
 * @typedef {import('../walk/expressions').Mode} Mode
 * @typedef {import('./inserter').Span} Span
 */

/** The helpers (page/helpers/properties.js) for an access by a name, which return the object, and by a key, which return the key. */
const BY_NAME = { r: 'p', w: 'q', u: 'b', U: 'B', d: 'g' };
const BY_KEY = { r: 'k', w: 'l', u: 'j', U: 'J', d: 'h' };
/** Names of the browser whose properties a page does not change. */
const TOOLS = new Set(['Math', 'JSON', 'Object', 'Array', 'String', 'Number', 'Boolean', 'Symbol', 'Reflect', 'Promise', 'Date', 'console', 'performance',
  'navigator', 'location', 'history', 'screen', 'Intl', 'CSS', 'crypto']);
/** Those of the language: what code puts there is marked, and its reads. */
const TOOLS_OF_LANGUAGE = new Set(['Math', 'JSON', 'Object', 'Array', 'String', 'Number', 'Boolean', 'Symbol', 'Reflect', 'Promise', 'Date', 'console', 'Intl']);
/** What is made where it is, or has no properties of its own. */
const FRESH = new Set(['Super', 'Literal', 'TemplateLiteral', 'MetaProperty', 'ArrayExpression', 'ObjectExpression', 'FunctionExpression',
  'ArrowFunctionExpression', 'ClassExpression', 'BinaryExpression', 'UpdateExpression', 'UnaryExpression']);

/** The key of a member that is known from the text alone, as it is in a call; else null. Called by value-marks.js. */
function knownKey(/** @type {MemberExpression} */ { computed, property }) {
  if (property.type === 'PrivateIdentifier') return quote(`#${property.name}`);
  if (!computed) return quote(property.type === 'Identifier' ? property.name : '');
  if (property.type !== 'Literal') return null;
  if (typeof property.value === 'number') return String(property.value);
  return typeof property.value === 'string' ? quote(property.value) : null;
}

/**
 * Whether a part of a chain further left may end the chain, as in `a?.b.c`: then its `.c` is not marked.
 * @param {Node} node
 */
function mayEndBefore(node) {
  let part = node;
  while (part.type === 'MemberExpression' || part.type === 'CallExpression') {
    if (part.optional) return true;
    part = part.type === 'MemberExpression' ? part.object : part.callee;
  }
  return false;
}

/**
 * @param {Node} node
 * @returns {node is MemberExpression}
 */
const isNamedSuper = (node) => node.type === 'MemberExpression' && node.object.type === 'Super' && !node.computed;

/**
 * Whether a member of a name of the language, as `Promise.x`, may be code's own: if it is written, or if the language has it not.
 * @param {MemberExpression} member
 * @param {string} name
 * @param {Mode} mode
 */
function mayBePut({ computed, property }, name, mode) {
  if (computed || property.type !== 'Identifier' || !TOOLS_OF_LANGUAGE.has(name)) return false;
  return mode !== 'r' || !(property.name in /** @type {{[name: string]: any}} names of the language */ (globalThis)[name]);
}

/**
 * Whether marks in an expression leave what a mark before it keeps: a variable, or a member by its names. (Code of a getter may not; then a wrong key is read.)
 * @param {Node} node
 * @returns {boolean}
 */
function keepsWhatIsKept(node) {
  if (node.type === 'MemberExpression') return !node.computed && keepsWhatIsKept(node.object);
  return node.type === 'ThisExpression' || node.type === 'Identifier';
}

/** Extended by value-marks.js. */
class MemberMarks extends ClosureMarks {
  /**
   * Whether evaluating an expression twice is as good as once. Called by call-marks.js and value-marks.js.
   * @param {Node} node
   * @param {Scope} scope
   */
  isSimple(node, scope) {
    if (node.type === 'ThisExpression') return true;
    return node.type === 'Identifier' && /^(local|module)$/.test(scope.where(node.name));
  }

  /** The site of a member, with the text of its object. */
  siteOf(/** @type {MemberExpression} */ { object, property }) {
    return this.siteAt(property, object);
  }

  siteOfWhole(/** @type {Span} */ node) {
    return this.siteAt(node, node);
  }

  /** A site, with the text of the object that is met there. Called by call-marks.js. */
  siteAt(/** @type {Span} */ { start }, /** @type {Span} */ object) {
    return this.site(start, { object: [object.start, object.end] });
  }

  /**
   * Whether nothing is reported of a member, by what its object is.
   * @param {MemberExpression} node
   * @param {Scope} scope
   * @param {Mode} [mode]
   */
  isLeftOut(node, scope, mode = 'r') {
    const { object, optional } = node;
    if (FRESH.has(object.type) || (!optional && mayEndBefore(object))) return true;
    if (object.type !== 'Identifier') return false;
    return object.name === 'arguments' || (TOOLS.has(object.name) && scope.where(object.name) === 'global' && !mayBePut(node, object.name, mode));
  }

  /**
   * Visits a member and marks its access, in any expression.
   * @param {MemberExpression} node
   * @param {Scope} scope
   * @param {Mode} mode
   */
  visitMember(node, scope, mode) {
    const read = this.variables.readOfModule(node, scope);
    const key = knownKey(node);
    if (read) this.inserter.callBefore(node.object, `${read})`)();
    else if (node.object.type === 'Super') this.visitSuper(node, scope, mode);
    else if (this.isLeftOut(node, scope, mode)) super.visitMember(node, scope, mode);
    else if (key !== null) this.markNamed(node, scope, BY_NAME[mode], key);
    else this.markKeyed(node, scope, BY_KEY[mode]);
  }

  /**
   * `a.b` becomes `call(a,"b",site).b`. Called by call-marks.js.
   * @param {MemberExpression} node
   * @param {Scope} scope
   * @param {string} helper
   * @param {string} key
   */
  markNamed(node, scope, helper, key) {
    const close = this.inserter.wrap(node.object, `__er.${helper}(`, `,${key},${this.siteOf(node)})`);
    this.visit(node.object, scope);
    close();
    if (node.computed) this.visit(node.property, scope);
  }

  /**
   * `a[k]` becomes `a[call(a,k,site)]`; what is more than a variable is kept for a moment: `(t=f())[call(t,k,site)]`.
   * @param {MemberExpression} node
   * @param {Scope} scope
   * @param {string} helper
   */
  markKeyed(node, scope, helper) {
    const { object, property } = node;
    const text = this.visitKept(object, scope);
    const close = this.inserter.wrap(property, `__er.${helper}(${text},`, `,${this.siteOf(node)})`);
    this.visit(property, scope);
    close();
  }

  /**
   * Visits an expression whose value a mark after it uses; returns how this mark reads it. Called by value-marks.js.
   * @param {Node} node
   * @param {Scope} scope
   */
  visitKept(node, scope) {
    if (this.isSimple(node, scope)) {
      this.visit(node, scope);
      return this.inserter.textOf(node);
    }
    this.visitWrapped(node, scope, '(__er.t=', ')');
    return '__er.t';
  }

  /**
   * Visits an expression and puts it between two texts. Called by call-marks.js and value-marks.js.
   * @param {Node} node
   * @param {Scope} scope
   * @param {string} before
   * @param {string} after
   */
  visitWrapped(node, scope, before, after) {
    const close = this.inserter.wrap(node, before, after);
    this.visit(node, scope);
    close();
  }

  // ---- super

  /**
   * `super.x` is `this.x` without the object's own; only a key in brackets has room for a mark.
   * @param {MemberExpression} node
   * @param {Scope} scope
   * @param {Mode} mode
   */
  visitSuper(node, scope, mode) {
    const helper = mode === 'r' ? 'sk' : BY_KEY[mode];
    if (node.computed) this.visitWrapped(node.property, scope, `__er.${helper}(this,`, `,${this.siteOf(node)})`);
  }

  /** The call for a read of a named `super.x`. Called by call-marks.js. */
  readOfSuper(/** @type {MemberExpression} */ member) {
    return `__er.sp(this,${knownKey(member)},${this.siteOf(member)})`;
  }

  /**
   * Puts the call for an update of `super.x` before an expression; nothing if the member is none such. Called by value-marks.js.
   * @param {Node} node
   * @param {Node} member
   */
  markUpdateOfSuper(node, member) {
    return isNamedSuper(member) ? this.inserter.callBefore(node, `__er.b(this,${knownKey(member)},${this.siteOf(member)})`) : nothing;
  }

  MemberExpression(/** @type {MemberExpression} */ node, /** @type {Scope} */ scope) {
    const close = isNamedSuper(node) ? this.inserter.callBefore(node, this.readOfSuper(node)) : nothing;
    super.MemberExpression(node, scope);
    close();
  }

  UpdateExpression(/** @type {import('../syntax/types').UpdateExpression} */ node, /** @type {Scope} */ scope) {
    const close = this.markUpdateOfSuper(node, node.argument);
    super.UpdateExpression(node, scope);
    close();
  }

  // ---- operators

  NewExpression(/** @type {import('../syntax/types').NewExpression} */ node, /** @type {Scope} */ scope) {
    const { callee } = node;
    const isPlain = /^(Identifier|ThisExpression|FunctionExpression|ClassExpression)$/.test(callee.type);
    const close = isPlain ? nothing : this.inserter.around(callee, '(', ')');
    this.visit(callee, scope);
    close();
    const finish = this.markMaking(node, scope);
    this.visitAll(node.arguments, scope);
    finish();
  }

  BinaryExpression(/** @type {import('../syntax/types').BinaryExpression} */ node, /** @type {Scope} */ scope) {
    const { left, right, operator } = node;
    if (operator !== 'in') {
      this.visitChildren(node, scope);
      return;
    }
    const isKept = keepsWhatIsKept(right);
    const key = this.visitKeyOfIn(left, scope, isKept);
    if (key) this.visitWrapped(right, scope, '__er.o(', `,${key},${this.siteAt(left, right)})`);
    else this.visit(right, scope);
  }

  /**
   * Returns how a mark at the right side reads the key, or '' if it cannot.
   * @param {Node} left
   * @param {Scope} scope
   * @param {boolean} isKept
   */
  visitKeyOfIn(left, scope, isKept) {
    if (left.type === 'PrivateIdentifier') return quote(`#${left.name}`);
    if (left.type === 'Literal' && typeof left.value === 'string') return quote(left.value);
    if (this.isSimple(left, scope) || isKept) return this.visitKept(left, scope);
    this.visit(left, scope);
    return '';
  }
}

module.exports = { MemberMarks, knownKey, mayEndBefore, isNamedSuper, FRESH };
