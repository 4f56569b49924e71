'use strict';
// Syntax that Chromium runs and Debian's acorn (8.8) does not know: import attributes, the options of `import()`, `using` and `await using`, and calls that
// are assigned to, which fail only when they run. Decorators are not read. What the browser refuses too may be taken: it runs neither the code nor its marks.

const { tokTypes } = require('/usr/share/nodejs/acorn');

/**
 * A parser of acorn's: its types have only what a caller uses, and an extension uses its insides.
 * @typedef {any} AcornParser
 * @typedef {any} AcornNode
 */

/** Blanks and comments that end no line. */
const BLANKS = /(?:[^\S\n\r\u2028\u2029]|\/\*(?:(?!\*\/)[^\n\r\u2028\u2029])*\*\/)*/y;
const NAME = /(?:[\p{ID_Start}$_]|\\u)[\p{ID_Continue}$\\\u200c\u200d]*/uy;
/** Names after which `using` is a name itself: `using in x`. */
const OPERATORS = new Set(['in', 'instanceof']);

/**
 * The name after an offset, in the same line; '' if there is none.
 * @param {string} code
 * @param {number} offset
 */
function nameAfter(code, offset) {
  BLANKS.lastIndex = offset;
  BLANKS.exec(code);
  NAME.lastIndex = BLANKS.lastIndex;
  return NAME.exec(code)?.[0] ?? '';
}

/**
 * Whether `using` before an offset declares a name.
 * @param {string} code
 * @param {number} offset
 * @param {boolean} isHead whether it is in the head of a loop: `for (using of list)`
 */
function declaresAt(code, offset, isHead) {
  const name = nameAfter(code, offset);
  return name !== '' && !OPERATORS.has(name) && !(isHead && name === 'of');
}

/**
 * Whether an expression is a call that sloppy code may assign to.
 * @param {AcornParser} parser
 * @param {AcornNode} node
 */
const isAssignedCall = (parser, node) => node?.type === 'CallExpression' && !node.optional && !parser.strict;

/**
 * Called by parse.js.
 * @param {AcornParser} Base
 * @returns {AcornParser}
 */
const newerSyntax = (Base) => class extends Base {
  // ---- `with {type: "json"}`

  /** @param {AcornNode} node */
  parseImport(node) {
    this.moduleStatement = node;
    return super.parseImport(node);
  }

  /**
   * @param {AcornNode} node
   * @param {unknown} exports
   */
  parseExport(node, exports) {
    this.moduleStatement = node;
    return super.parseExport(node, exports);
  }

  /** The attributes come after the address, before the end of the statement. */
  semicolon() {
    if (this.type === tokTypes._with && this.moduleStatement?.source && this.moduleStatement.source.end === this.lastTokEnd) this.skipAttributes();
    super.semicolon();
  }

  /** Reads `with { type: 'json' }`, and leaves it out of the tree. */
  skipAttributes() {
    this.next();
    this.expect(tokTypes.braceL);
    while (!this.eat(tokTypes.braceR)) {
      if (this.type === tokTypes.string) this.parseExprAtom();
      else this.parseIdent(true);
      this.expect(tokTypes.colon);
      if (this.type !== tokTypes.string) this.unexpected();
      this.parseExprAtom();
      if (this.type !== tokTypes.braceR) this.expect(tokTypes.comma);
    }
  }

  /**
   * `import(address, options)`, with a comma after each.
   * @param {AcornNode} node
   */
  parseDynamicImport(node) {
    this.next();
    node.source = this.parseMaybeAssign();
    node.options = null;
    if (this.eat(tokTypes.comma) && this.type !== tokTypes.parenR) {
      node.options = this.parseMaybeAssign();
      this.eat(tokTypes.comma);
    }
    this.expect(tokTypes.parenR);
    return this.finishNode(node, 'ImportExpression');
  }

  // ---- `using`: acorn reads it as `let`

  /**
   * acorn calls this for each statement: `using` at the top of a script is a name.
   * @param {unknown} context
   * @param {boolean} topLevel
   * @param {unknown} exports
   */
  parseStatement(context, topLevel, exports) {
    this.isTopOfScript = !!topLevel && !this.inModule;
    return super.parseStatement(context, topLevel, exports);
  }

  /**
   * acorn asks this where a declaration may start: `using` is read as `let`.
   * @param {unknown} [context] null at a statement that may declare; undefined in the head of a loop
   */
  isLet(context) {
    const isHead = context === undefined;
    this.using = context || (!isHead && this.isTopOfScript) ? null : this.usingHere(isHead);
    return this.using !== null || super.isLet(context);
  }

  /**
   * Whether a declaration by `using` or `await using` starts here; null if these words are names.
   * @param {boolean} isHead
   */
  usingHere(isHead) {
    if (this.isContextual('using')) return declaresAt(this.input, this.end, isHead) ? 'using' : null;
    if (!this.isContextual('await') || !this.canAwait || nameAfter(this.input, this.end) !== 'using') return null;
    return declaresAt(this.input, this.input.indexOf('using', this.end) + 'using'.length, false) ? 'await using' : null;
  }

  /**
   * acorn calls this for a declaration. `using` was read as `let` before, so that acorn takes it, and becomes what it is.
   * @param {AcornNode} node
   * @param {boolean} isFor
   * @param {string} kind
   */
  parseVar(node, isFor, kind) {
    const using = kind === 'let' ? this.using : null;
    this.using = null;
    if (using === 'await using') this.next();
    super.parseVar(node, isFor, kind);
    if (using) node.kind = using;
    return node;
  }

  // ---- `f() = 1`

  /**
   * @param {AcornNode} node
   * @param {boolean} isBinding
   * @param {unknown} errors
   */
  toAssignable(node, isBinding, errors) {
    return !isBinding && isAssignedCall(this, node) ? node : super.toAssignable(node, isBinding, errors);
  }

  /**
   * @param {AcornNode} node
   * @param {number} [binding]
   * @param {unknown} [clashes]
   */
  checkLValSimple(node, binding, clashes) {
    if (binding || !isAssignedCall(this, node)) super.checkLValSimple(node, binding, clashes);
  }
};

module.exports = { newerSyntax };
