'use strict';
// How the browser reports the code of a call that fails, as in "$(...).menu is not a function": read from the page's own text, where the browser saw a copy
// with marks. It is the text of a TypeError.

const acorn = require('/usr/share/nodejs/acorn');

/**
 * @typedef {import('./syntax/types').Node} Node
 * @typedef {import('./syntax/types').Expression} Expression
 */

/**
 * A parser of acorn's, with what is no part of its types.
 * @typedef {acorn.Parser & {
 *   startLoc: unknown,
 *   parseExprAtom: () => Expression,
 *   parseExprSubscripts: () => Expression,
 *   parseSubscripts: (base: Expression, start: number, startLoc: unknown, noCalls: boolean) => Expression,
 * }} Parser
 */

/** What the browser reports of a mark: it stands for any words of the page's own. After one a name may come, in brackets with it. */
const OF_MARKS = /\(__er\.\w+(?:\(\.\.\.\))? , [\w$]+\)|__er\.\w+(?:\(\.\.\.\))?/;
/** At most so many characters are between the start of a chain of calls and members and its last call. */
const LONGEST_CHAIN = 2000;
/** @type {acorn.Options} */
const OPTIONS = { ecmaVersion: 'latest', sourceType: 'script', allowAwaitOutsideFunction: true, allowSuperOutsideMethod: true };
const NAME = /[\p{ID_Start}$_][\p{ID_Continue}$]*/gu;
/** What is before a name with which no chain starts: it is a member's or a constructor's. */
const NO_START = /(?:\bnew\s+|(?<!\.)\.\s*)$/;
/** What starts a comment up to the end of a line. */
const COMMENT = /(?<!:)\/\//;
/** Words that a bracket may follow without a call of a function with this name. */
const MAY_BE_NO_NAME = new Set(['await', 'yield', 'of', 'async']);
/** How the browser reports an object that has no words of its own. */
const UNTOLD = '(intermediate value)';

/**
 * What acorn reads at an offset; null if nothing of the kind is there.
 * @template T
 * @param {string} text
 * @param {number} start
 * @param {(parser: Parser) => T} read
 * @returns {T|null}
 */
function parseAt(text, start, read) {
  try {
    const parser = /** @type {Parser} */ (/** @type {unknown} */ (new acorn.Parser(OPTIONS, text, start)));
    parser.nextToken();
    return read(parser);
  } catch {
    return null; // what is there is no such code, so the browser's own words stay
  }
}

/** @param {Node} node */
const mayBeNoName = (node) => node.type === 'Identifier' && MAY_BE_NO_NAME.has(node.name);

/**
 * A member as the browser names it in a message: `a.b`, `a?.b`, `a[k]`; null if the browser names it otherwise.
 * @param {import('./syntax/types').MemberExpression} node
 */
function wordsOfMember({ object, property, computed, optional }) {
  if (computed && mayBeNoName(object)) return null;
  const of = wordsOf(object);
  if (of === null) return null;
  if (!computed && (property.type === 'Identifier' || property.type === 'PrivateIdentifier')) return `${of}${optional ? '?.' : '.'}${property.name}`;
  if (property.type === 'Literal' && typeof property.value === 'string') return `${of}${optional ? '?.' : '.'}${property.value}`;
  const key = wordsOf(property);
  return key === null ? null : `${of}${optional ? '?.' : ''}[${key}]`;
}

/**
 * A call as the browser names it in a message: `a.b(...)`.
 * @param {import('./syntax/types').CallExpression} node
 */
function wordsOfCall({ callee, optional }) {
  const of = mayBeNoName(callee) ? null : wordsOf(callee);
  return of === null ? null : `${of}${optional ? '?.' : ''}(...)`;
}

/**
 * An expression as the browser reports it; null for what is none of a call's usual chain.
 * @param {Node} node
 * @returns {string|null}
 */
function wordsOf(node) {
  switch (node.type) {
    case 'Identifier': return node.name;
    case 'ThisExpression': return 'this';
    case 'NewExpression': return UNTOLD;
    case 'Literal': return typeof node.value === 'string' ? `"${node.value}"` : node.raw;
    case 'ChainExpression': return wordsOf(node.expression);
    case 'CallExpression': return wordsOfCall(node);
    case 'MemberExpression': return wordsOfMember(node);
    default: return null;
  }
}

/**
 * The code before a call and the call itself, without its arguments: so no more of the page is read than the chain.
 * @param {string} text
 * @param {number} offset
 */
function upToCall(text, offset) {
  const before = text.slice(Math.max(0, offset - LONGEST_CHAIN), offset);
  if (text[offset] === '`') return `${before}\`\``;
  const name = /^[\p{ID_Continue}$]*/u.exec(text.slice(offset, offset + LONGEST_CHAIN))?.[0] ?? '';
  return `${before}${name}()`;
}

/**
 * What is called at a `new`, without its arguments.
 * @param {string} text
 * @param {number} offset
 */
function calledByNew(text, offset) {
  const code = text.slice(offset, offset + LONGEST_CHAIN);
  return parseAt(code, 'new'.length, (parser) => {
    const { start, startLoc } = parser;
    return parser.parseSubscripts(parser.parseExprAtom(), start, startLoc, true);
  });
}

/** @param {string} before */
const mayStart = (before) => !NO_START.test(before) && !COMMENT.test(before.slice(before.lastIndexOf('\n') + 1));

/**
 * What is called at an offset, by the chain that ends with the call; null if none does.
 * @param {string} text
 * @param {number} offset
 * @returns {Node|null}
 */
function calledAt(text, offset) {
  if (/^new\b/.test(text.slice(offset, offset + 4))) return calledByNew(text, offset);
  const code = upToCall(text, offset);
  for (const { index = 0 } of [...code.matchAll(NAME)].reverse()) {
    const chain = mayStart(code.slice(0, index)) ? parseAt(code, index, (parser) => parser.parseExprSubscripts()) : null;
    const call = chain?.type === 'ChainExpression' ? chain.expression : chain;
    if (call?.end !== code.length) continue;
    if (call.type === 'CallExpression' || call.type === 'NewExpression') return call.callee;
    return call.type === 'TaggedTemplateExpression' ? call.tag : null;
  }
  return null;
}

/**
 * Whether words of the page's own code stand for what the browser reported of the copy: its pieces are in them in order, and something for each mark
 * between. No expression is made of it, which could try the marks in more ways than it ever ends with: a page can write any such message.
 * @param {string} words
 * @param {string} message
 * @returns {boolean}
 */
function standsFor(words, message) {
  const [first, ...pieces] = message.split(OF_MARKS);
  const last = pieces.pop();
  if (last === undefined) return words === first;
  let end = words.startsWith(first) ? first.length : Infinity;
  for (const piece of pieces) {
    const found = words.indexOf(piece, end + 1);
    end = found < 0 ? Infinity : found + piece.length;
  }
  return words.endsWith(last) && words.length - last.length > end;
}

/**
 * What ownCallSite returns if it was not asked before.
 * @param {string} message
 * @param {string} text
 * @param {number} offset
 */
function readCallSite(message, text, offset) {
  const called = calledAt(text, offset);
  const words = called ? wordsOf(called) : null;
  return words !== null && standsFor(words, message) ? words : null;
}

/**
 * A message of an error with the call in the page's own words, without marks. A page can throw the same error very often, so results are kept.
 * Called by recording/error-text.js.
 * @param {string} message what the browser reported of the copy
 * @param {{text: string, offset: number, known?: Map<string, string|null>}} place where it says that the call is, in the page's own text: at `new`, at a
 *   template, at the name of a method or a function, else at the bracket; and what was returned for this text before
 * @returns {string|null} the same of the page's own text; null if it cannot be said
 */
function ownCallSite(message, { text, offset, known = new Map() }) {
  const key = `${offset} ${message}`;
  const before = known.get(key);
  if (before !== undefined) return before;
  const words = readCallSite(message, text, offset);
  known.set(key, words);
  return words;
}

module.exports = { ownCallSite };
