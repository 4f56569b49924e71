'use strict';
// Inserts marks into a text, as edits.

const { MARKS, delimitersOf } = require('../marks/delimiters.js');
const { nothing } = require('../walk/walker.js');

/**
 * @typedef {import('../syntax/types').Node} Node
 * @typedef {import('../syntax/types').Statement} Statement
 * @typedef {{start: number, end: number}} Span from where to where something is
 */

const SEMICOLON = 59;
const CLOSING_BRACE = 125;
/** The greatest of the codes of a blank, a tab and the ends of lines. */
const BLANK_CODE = 32;

/** What may be before an arrow or the brace of a static block. */
const COMMENT_OR = (/** @type {string} */ token) => new RegExp(`//[^\\n\\r\\u2028\\u2029]*|/\\*[^]*?\\*/|${token}`, 'g');

/** Whether an expression is a function or class that gets its name from where it is. */
function isAnonymousFunction(/** @type {Node} */ node) {
  if (node.type === 'ArrowFunctionExpression') return true;
  return (node.type === 'FunctionExpression' || node.type === 'ClassExpression') && !node.id;
}

/** Made by statement-marks.js, as its `inserter`. */
class Inserter {
  /** @param {string} code */
  constructor(code) {
    this.code = code;
    /** @type {import('../syntax/types').Edit[]} */
    this.edits = [];
    this.delimiters = delimitersOf(code);
  }

  /**
   * Inserts a mark at an offset. Called by closure-marks.js, marks.js and instrument/instrument.js.
   * @param {number} offset
   * @param {string} text
   */
  insert(offset, text) {
    const { begin, end, afterSlash } = this.delimiters;
    const blank = this.code[offset - 1] === '/' ? afterSlash : '';
    this.edits.push({ start: offset, end: offset, insert: `${blank}${begin}${text}${end}` });
  }

  /** In a text of its own blanks an empty mark in each function and class shows what its marks are between. Called by marks.js. */
  noteDelimiters(/** @type {{body: Span}} */ { body }) {
    if (this.delimiters === MARKS.inComments) this.insert(body.start, '');
  }

  /**
   * Puts an expression between two texts; returns what inserts the second one.
   * @param {Span} node
   * @param {string} before
   * @param {string} after
   */
  around(node, before, after) {
    this.insert(node.start, before);
    return () => this.insert(node.end, after);
  }

  /**
   * Puts an expression into a call, as its first arguments or after them. Called by call-marks.js, marks.js and member-marks.js.
   * @param {Node} node
   * @param {string} before
   * @param {string} after
   */
  wrap(node, before, after) {
    return node.type === 'SequenceExpression' ? this.around(node, `${before}(`, `)${after}`) : this.around(node, before, after);
  }

  /**
   * Puts a call before an expression: `x` becomes `(call,x)`.
   * @param {Span} node
   * @param {string} call
   */
  callBefore(node, call) {
    return this.around(node, `(${call},`, ')');
  }

  /**
   * Puts calls after an expression: `x` becomes `(t=x,calls,t)`. Nothing of the page runs between the first and the last. Called by closure-marks.js and
   * marks.js.
   * @param {Span} node
   * @param {string} calls
   */
  callsAfter(node, calls) {
    return calls ? this.around(node, '(__er.t=', `,${calls},__er.t)`) : nothing;
  }

  /**
   * Puts an expression into a call as its last argument, which the call returns. A list would be several arguments; and a function or class without a
   * name, that gets one from where it is, gets this one.
   * @param {Node} node
   * @param {string|null} call without its last argument and bracket
   * @param {string} [name]
   * @param {string} [further] arguments after it
   */
  callAround(node, call, name = '', further = '') {
    if (!call) return nothing;
    if (name && name !== '__proto__' && isAnonymousFunction(node)) return this.around(node, `${call},{${name}:`, `}.${name}${further})`);
    return this.wrap(node, `${call},`, `${further})`);
  }

  /**
   * A statement may end without a semicolon: one is inserted if another statement follows, which may now start with a bracket. Called by statement-marks.js.
   */
  endStatement(/** @type {Span} */ node) {
    if (this.code.charCodeAt(node.end - 1) !== SEMICOLON && !this.isLastOfBlock(node.end)) this.insert(node.end, ';');
  }

  /**
   * Whether only blanks are between an offset and the end of its block: then no semicolon is needed there.
   * @param {number} offset
   */
  isLastOfBlock(offset) {
    let at = offset;
    while (this.code.charCodeAt(at) <= BLANK_CODE) at++;
    return at >= this.code.length || this.code.charCodeAt(at) === CLOSING_BRACE;
  }

  /**
   * The text of a node in the original. Called by call-marks.js, member-marks.js and value-marks.js.
   * @param {Span} node
   */
  textOf({ start, end }) {
    return this.code.slice(start, end);
  }

  /**
   * The end of the first such token after an offset, if only comments and brackets are between. Called by closure-marks.js.
   * @param {number} offset
   * @param {string} token
   */
  endOfToken(offset, token) {
    const pattern = COMMENT_OR(token);
    pattern.lastIndex = offset;
    let found = pattern.exec(this.code);
    while (found?.[0].startsWith('/')) found = pattern.exec(this.code);
    return pattern.lastIndex;
  }
}

/**
 * Where the first statement of a function's body can be: after its directives (`'use strict'`). In a script: `startOfRun` of instrument.js. Called by
 * closure-marks.js and marks.js.
 * @param {import('../syntax/types').BlockStatement} body
 */
function startOfStatements({ start, body }) {
  let place = start + 1;
  for (const statement of body) {
    if (statement.type !== 'ExpressionStatement' || statement.directive === undefined) break;
    place = statement.end;
  }
  return place;
}

module.exports = { Inserter, startOfStatements };
