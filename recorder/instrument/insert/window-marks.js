'use strict';
// Marks the members whose object may be the window: `window.a` is the global variable `a`. `self`, `globalThis`, `top` and others can be it too. All that
// `--depth globals` marks of members: objects and closures are left out then.

const { isFunction } = require('../syntax/children.js');
const { quote } = require('../marks/quote.js');
const { Marks, knownProperty } = require('./marks.js');
const { NEVER_RECORDED } = require('../walk/variables.js');

/**
 * @typedef {import('../syntax/scopes').Scope} Scope
 * @typedef {import('../syntax/types').Node} Node
 * @typedef {import('../syntax/types').CallExpression} CallExpression
 * @typedef {import('../syntax/types').MemberExpression} MemberExpression
 * @typedef {import('../syntax/types').Identifier} Identifier
 * @typedef {{name: string, object: Identifier}} WindowMember
 */

/** Names by which scripts commonly reach the window; whether one does is asked when the code runs. */
const WINDOW_NAMES = new Set(['window', 'self', 'globalThis', 'top', 'parent', 'root', 'global', 'win', 'w', 'exports', 'context']);

/**
 * Whether an expression is the window, or, if there is none, something else: `typeof window !== 'undefined' ? window : this`.
 * @param {Node|undefined} node
 * @param {Scope} scope
 * @returns {boolean}
 */
function isWindow(node, scope) {
  if (!node) return false;
  if (node.type === 'ConditionalExpression') return isWindow(node.consequent, scope) || isWindow(node.alternate, scope);
  if (node.type === 'ThisExpression') return scope.code === null;
  return node.type === 'Identifier' && /^(window|self|globalThis)$/.test(node.name) && scope.where(node.name) === 'global';
}

/** A function that is called where it is may get the window by a name of its own: `!function (e) {..}(window)`. */
function noteWindowNames(/** @type {CallExpression} */ { callee, arguments: args }, /** @type {Scope} */ scope) {
  const isByCall = callee.type === 'MemberExpression' && callee.property.type === 'Identifier' && callee.property.name === 'call';
  const called = isByCall ? callee.object : callee;
  if (!isFunction(called)) return;
  const given = isByCall ? args.slice(1) : args;
  called.windowNames = new Set(called.params.flatMap((parameter, k) => (parameter.type === 'Identifier' && isWindow(given[k], scope) ? [parameter.name] : [])));
}

/** Made by instrument/instrument.js. */
class WindowMarks extends Marks {
  CallExpression(/** @type {CallExpression} */ node, /** @type {Scope} */ scope) {
    noteWindowNames(node, scope);
    super.CallExpression(node, scope);
  }

  /**
   * The name of a property of what may be the window, and its object; else null.
   * @param {MemberExpression} node
   * @param {Scope} scope
   * @returns {WindowMember|null}
   */
  memberOfWindow(node, scope) {
    const name = knownProperty(node);
    const { object } = node;
    if (name === null || object.type !== 'Identifier' || this.options.builtins.has(name) || NEVER_RECORDED.has(name)) return null;
    const isLocal = scope.where(object.name) === 'local';
    if (!WINDOW_NAMES.has(object.name) && !(isLocal && scope.ownerOf(object.name)?.windowNames?.has(object.name))) return null;
    return isLocal || this.options.builtins.has(object.name) ? { name, object } : null;
  }

  /** The object goes through a helper that looks whether it is the window. */
  visitMember(/** @type {MemberExpression} */ node, /** @type {Scope} */ scope, /** @type {import('../walk/expressions').Mode} */ mode) {
    const read = this.variables.readOfModule(node, scope);
    if (read) {
      this.inserter.callBefore(node.object, `${read})`)();
      return;
    }
    const member = this.memberOfWindow(node, scope);
    if (!member) super.visitMember(node, scope, mode);
    else this.inserter.around(member.object, `(__er.${mode === 'd' ? 'w' : mode}o(`, `,${quote(member.name)},${this.site(node.property.start)}))`)();
  }

  assignMember(/** @type {import('../syntax/types').AssignmentExpression} */ node, /** @type {MemberExpression} */ left, /** @type {Scope} */ scope) {
    const { right, operator } = node;
    const isApart = this.isApart(node);
    const member = isApart || operator === '=' ? this.memberOfWindow(left, scope) : null;
    if (!member || isApart) this.visitMember(left, scope, isApart ? 'r' : operator === '=' ? 'w' : this.updateMode(node));
    const call = member && `__er.fo(${member.object.name},${quote(member.name)},${this.site(left.property.start)}`;
    const close = this.inserter.callAround(right, call);
    this.visit(right, scope);
    close();
  }
}

module.exports = { WindowMarks };
