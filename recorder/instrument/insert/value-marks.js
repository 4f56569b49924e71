'use strict';
// Marks the writes of properties that come with a value, and what patterns and loops take of their objects. `a.b = value`, destructuring assignments, `for (..
// of ..)`, `for await` and `for (.. in ..)`.

const { mayRun } = require('../syntax/children.js');
const { addNamesOfCode } = require('../syntax/names.js');
const { MemberMarks, knownKey, FRESH } = require('./member-marks.js');
const { patternOfLoop, nothing } = require('../walk/walker.js');
const { shapeOf, patternsOf, isTakingPattern } = require('./shapes.js');

/**
 * @typedef {import('../syntax/scopes').Scope} Scope
 * @typedef {import('../syntax/types').Node} Node
 * @typedef {import('../syntax/types').Expression} Expression
 * @typedef {import('../syntax/types').Pattern} Pattern
 * @typedef {import('../syntax/types').FunctionNode} FunctionNode
 * @typedef {import('../syntax/types').MemberExpression} MemberExpression
 * @typedef {import('../syntax/types').AssignmentExpression} AssignmentExpression
 */

/**
 * Whether the code of a function declares a name.
 * @param {FunctionNode} node
 * @param {string} name
 */
function declaresInBody({ body }, name) {
  /** @type {Set<string>} */
  const names = new Set();
  if (body.type === 'BlockStatement') addNamesOfCode(body.body, names);
  return names.has(name);
}

/** Extended by call-marks.js. */
class ValueMarks extends MemberMarks {
  /** The write of a property is reported with its value if other code may run before it comes, or the object is a variable. */
  assignMember(/** @type {AssignmentExpression} */ node, /** @type {MemberExpression} */ left, /** @type {Scope} */ scope) {
    const { right, operator } = node;
    const isApart = this.isApart(node);
    if ((isApart || operator === '=') && this.assignLate(left, right, scope, isApart)) return;
    const close = operator === '=' ? nothing : this.markUpdateOfSuper(node, left);
    this.visitMember(left, scope, operator === '=' ? 'w' : this.updateMode(node));
    this.visit(right, scope);
    close();
  }

  /**
   * `a.b=f()` becomes `a.b=call(a,"b",site,f())`. Returns whether it does.
   * @param {MemberExpression} left
   * @param {Expression} right
   * @param {Scope} scope
   * @param {boolean} isApart
   */
  assignLate(left, right, scope, isApart) {
    const args = left.object.type === 'Super' ? this.targetOfSuper(left, isApart) : this.visitTarget(left, right, scope, isApart);
    if (!args) return false;
    const close = this.inserter.callAround(right, `__er.${knownKey(left) === null ? 'fk' : 'f'}(${args},${this.siteOf(left)}`);
    this.visit(right, scope);
    close();
    return true;
  }

  targetOfSuper(/** @type {MemberExpression} */ left, /** @type {boolean} */ isApart) {
    return left.computed || isApart ? '' : `this,${knownKey(left)}`;
  }

  /**
   * Visits the target of an assignment; returns how a mark at the right side reads its object and key, or '' if it cannot.
   * @param {MemberExpression} left
   * @param {Expression} right
   * @param {Scope} scope
   * @param {boolean} isApart
   */
  visitTarget(left, right, scope, isApart) {
    const { object, property } = left;
    const key = knownKey(left);
    const isSimple = this.isSimple(object, scope);
    const isKeySimple = key !== null || this.isSimple(property, scope);
    const isWorth = mayRun(right) || (isSimple && key !== null);
    const canBe = isApart ? isSimple && isKeySimple : isSimple || isKeySimple;
    if (!isWorth || !canBe || this.isLeftOut(left, scope, 'w')) return '';
    if (isApart) {
      this.visitMember(left, scope, 'r');
      return `${this.inserter.textOf(object)},${key ?? this.inserter.textOf(property)}`;
    }
    const kept = this.visitKept(object, scope);
    if (key === null) return `${kept},${this.visitKept(property, scope)}`;
    if (left.computed) this.visit(property, scope);
    return `${kept},${key}`;
  }

  // ---- patterns

  /** A variable that is taken apart is in the marks of the pattern's keys. */
  noteTaken(/** @type {Pattern} */ pattern, /** @type {Expression|null} */ value, /** @type {Scope} */ scope) {
    if (pattern.type !== 'ObjectPattern' || !value || !this.isSimple(value, scope)) return;
    pattern.taken = this.inserter.textOf(value);
    pattern.takenAt = [value.start, value.end];
  }

  visitDeclarations(/** @type {import('../syntax/types').VariableDeclaration} */ node, /** @type {Scope} */ scope) {
    node.declarations.forEach(({ id, init }) => this.noteTaken(id, init, scope));
    super.visitDeclarations(node, scope);
  }

  assignPattern(/** @type {AssignmentExpression} */ node, /** @type {Scope} */ scope) {
    this.noteTaken(node.left, node.right, scope);
    super.assignPattern(node, scope);
  }

  /**
   * A key in brackets reads from a variable that is taken apart.
   * @param {import('../syntax/types').ObjectPattern['properties'][number]} property
   * @param {Scope} scope
   * @param {import('../syntax/types').ObjectPattern} pattern
   */
  visitPatternProperty(property, scope, pattern) {
    if (property.type === 'RestElement' || !property.computed || !pattern.taken) {
      super.visitPatternProperty(property, scope, pattern);
      return;
    }
    const { key, value } = property;
    this.visitWrapped(key, scope, `__er.k(${pattern.taken},`, `,${this.site(key.start, { object: pattern.takenAt })})`);
    this.visitPattern(value, scope);
  }

  /**
   * Visits a value that a pattern takes apart, and marks what it takes.
   * @param {Pattern} pattern
   * @param {Expression} value
   * @param {Scope} scope
   */
  visitTaken(pattern, value, scope) {
    const shape = isTakingPattern(pattern) && !FRESH.has(value.type) ? shapeOf(pattern) : '';
    if (shape) this.visitWrapped(value, scope, '__er.d(', `,${this.siteOfWhole(value)},${shape})`);
    else this.visit(value, scope);
  }

  /** Whether the code of a function can read the arguments of its call when it starts: a generator starts late, and an arrow has no `arguments`. */
  hasArguments(/** @type {FunctionNode} */ node) {
    if (node.generator || node.type === 'ArrowFunctionExpression') return false;
    const { params, body } = node;
    const ofParameters = this.inserter.textOf({ start: params[0].start, end: params[params.length - 1].end });
    return !ofParameters.includes('arguments') && !(this.inserter.textOf(body).includes('arguments') && declaresInBody(node, 'arguments'));
  }

  /**
   * Code for the start of a function whose parameters are patterns: what these take of the arguments are reads. Without `arguments` (arrow functions) nothing.
   */
  readsOfParameters(/** @type {FunctionNode} */ node) {
    const patterns = patternsOf(node.params);
    if (!patterns.length || !this.hasArguments(node)) return '';
    return patterns.map(({ pattern, index }) => {
      const shape = shapeOf(pattern);
      return shape && `__er.d(arguments[${index}],${this.siteOfWhole(pattern)},${shape});`;
    }).join('');
  }

  /** What a loop goes through is read as a whole; a pattern takes each item apart. */
  visitList(/** @type {import('../syntax/types').ForEachStatement} */ node, /** @type {Scope} */ scope) {
    const { right } = node;
    if (node.await) {
      this.visit(right, scope);
      return;
    }
    const pattern = patternOfLoop(node);
    const shape = isTakingPattern(pattern) ? shapeOf(pattern) : '';
    const helper = node.type === 'ForInStatement' ? 'n' : 'i';
    this.visitWrapped(right, scope, `__er.${helper}(`, `,${this.siteOfWhole(right)}${shape && `,${shape}`})`);
  }
}

module.exports = { ValueMarks };
