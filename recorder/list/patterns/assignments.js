'use strict';
// What the source text says of an assignment: whether it makes the new value of the old one. The trace has no read of `a.n` for `a.n = a.n + 1`: the mark of a
// property is around its object, so the write is recorded before the right side runs, and what an action reads after its own write is no access.

/** @typedef {import('../../races/source-text.js').SourceText} SourceText */
/** @typedef {import('../types').Place} Place */
/**
 * `object` is the text of a property's object as far as it is known, `key` '' for a variable, `isWhole` false if the right side goes on after the known text.
 * @typedef {{left: string, object: string, key: string, right: string, isWhole: boolean}} Assignment
 */

/** An assignment that uses the old value, from the name of the variable on; and the sign of a count before the name. */
const UPDATE = /^[\w$]+\s*(?:\+\+|--|(?:\*\*|<<|>>>?|[-+*/%&|^])=(?!=))/;
const COUNT_BEFORE = /(?:\+\+|--)\s*(?:[\w$]+\.)*$/;

/** The end of the text before a place: the object of a property. Then the name or key with the sign of the assignment. */
const OBJECT = /[\w$.[\]'"]*$/;
const NAMED = /^([\w$]+)\s*=(?![=>])/;
const KEYED = /^([^\]=]+\])\s*=(?![=>])/;
/** What ends an expression or goes deeper into it; a text is one token, whatever is in it. */
const TOKEN = /'(?:[^'\\\n]|\\.)*'|"(?:[^"\\\n]|\\.)*"|`(?:[^`\\]|\\[^])*`|[()[\]{},;\n]/g;
const PLAIN_TEXT = /'(?:[^'\\\n]|\\.)*'|"(?:[^"\\\n]|\\.)*"/g;
/** An expression goes on in the next line after the first, or before the second. */
const GOES_ON = /(?:^|[-+*/%&|^<>=?:!~.])\s*$/;
const IS_GOING_ON = /^\s*[-+*/%&|^<>=?:.]/;
/** So much of a right side is looked through. */
const LONGEST = 1000;
const MOST_LINES = 20;
/** And so much is shown of it. */
const LONGEST_SHOWN = 40;

/** @param {string} text */
const escaped = (text) => text.replace(/[\\^$.*+?()[\]{}|]/g, '\\$&');

/**
 * The text from a place on, with some lines after its own.
 * @param {SourceText} sources @param {Place} place
 */
function textFrom(sources, [file, line, column]) {
  const lines = sources.linesOf(file);
  let text = (lines[line] || '').slice(column - 1, column - 1 + LONGEST);
  for (let k = line + 1; lines[k] !== undefined && k <= line + MOST_LINES && text.length < LONGEST; k++) text += `\n${lines[k]}`;
  return text.slice(0, LONGEST);
}

/**
 * The expression at the start of a text, and whether its end is in the text.
 * @param {string} text
 */
function expressionAt(text) {
  let depth = 0;
  for (const { 0: token, index } of text.matchAll(TOKEN)) {
    if ('([{'.includes(token)) depth++;
    else if (')]}'.includes(token) && --depth < 0) return { right: text.slice(0, index), isWhole: true };
    if (depth > 0) continue;
    const isEnd = token === '\n' ? !GOES_ON.test(text.slice(0, index)) && !IS_GOING_ON.test(text.slice(index)) : token === ';' || token === ',';
    if (isEnd) return { right: text.slice(0, index), isWhole: true };
  }
  return { right: text, isWhole: depth === 0 && text.length < LONGEST && !GOES_ON.test(text) };
}

/**
 * The assignment of a write; null if the text at its place is none.
 * @param {SourceText} sources @param {Place} place @returns {Assignment|null}
 */
function assignmentAt(sources, place) {
  const { before } = sources.around(place);
  const text = textFrom(sources, place);
  const [object] = /** @type {RegExpExecArray} */ (OBJECT.exec(before));
  const found = (object.endsWith('[') ? KEYED : NAMED).exec(text);
  if (!found) return null;
  const key = object ? found[1].replace(/^['"]|['"]?\]$/g, '') : '';
  return { left: object + found[1], object: object.slice(0, -1), key, ...expressionAt(text.slice(found[0].length).trimStart()) };
}

/**
 * Whether an expression has a name in it, as of a variable or of a property with its object; not as the key of a literal.
 * @param {string} text @param {string} name
 */
function isNamed(text, name) {
  const one = escaped(name);
  const start = /^[\w$]/.test(name) ? `(?<![\\w$]|(?<!\\.\\.)\\.)(?!(?<=[{,]\\s*)${one}\\s*:)` : '';
  const end = /[\w$]$/.test(name) ? '(?![\\w$])' : '';
  return new RegExp(start + one + end).test(/['"]/.test(name) ? text : text.replace(PLAIN_TEXT, '""'));
}

/**
 * Whether a write makes the new value of the old one, as its text says: `x++`, `x += 1`, `x = x + 1`. Called by accesses.js.
 * @param {SourceText} sources @param {Place} place
 */
function isMadeOfOld(sources, place) {
  const { before, after } = sources.around(place);
  if (UPDATE.test(after) || COUNT_BEFORE.test(before)) return true;
  const found = assignmentAt(sources, place);
  return !!found && isNamed(found.right, found.left);
}

/**
 * Whether a write of a property might read it first, though the trace has no read: the right side has a property of this name, calls something with the
 * object, or goes on after what is known of the text; or the text is not known at all. Called by accesses.js.
 * @param {SourceText} sources @param {Place|undefined} place
 */
function mayReadOld(sources, place) {
  if (!place) return false;
  if (!sources.around(place).after) return true;
  const found = assignmentAt(sources, place);
  if (!found?.key) return false;
  const { object, key, right, isWhole } = found;
  const isSameKey = new RegExp(`[.[]\\s*['"]?${escaped(key)}(?![\\w$])`).test(right);
  return !isWhole || isSameKey || (right.includes('(') && object !== '' && isNamed(right, object));
}

/**
 * The right side of the assignment at a place in one line, cut if it is long; '' if its end is not known. Called by list/other-order.js.
 * @param {SourceText} sources @param {Place} place
 */
function assignedAt(sources, place) {
  const { right = '', isWhole = false } = assignmentAt(sources, place) || {};
  const text = right.trim().replace(/\s+/g, ' ');
  return !isWhole || !text ? '' : text.length > LONGEST_SHOWN ? `${text.slice(0, LONGEST_SHOWN).trimEnd()}..` : text;
}

module.exports = { assignedAt, isMadeOfOld, mayReadOld };
