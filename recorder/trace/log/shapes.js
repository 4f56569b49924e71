'use strict';
// The shape of each line: which tokens follow a keyword, for records of the trace and for lines of the page's log alone.

const format = require('../format.json');
const { BEGINS, FORMS } = require('../records.js');

/**
 * @typedef {(token: string) => boolean} Check
 * @typedef {Check[]} Shape what the tokens after the keyword are
 */

const MOST_NUMBER = 2 ** 32 - 1;
/** In bytes; of a line the format has the same limit (docs/format.md). */
const LONGEST_NAME = 255;
const LONGEST_LINE = 1024;
/** A byte that stands for itself is never escaped. */
const NAME = /^(?:[!-$&-~]|%(?:[01][0-9A-F]|20|25|7F|[89A-F][0-9A-F]))+$/;

/** @type {Check} */
const number = (token) => /^(?:0|[1-9]\d{0,9})$/.test(token) && Number(token) <= MOST_NUMBER;

/**
 * A name that is a text, whatever bytes the format allows: the page writes no others.
 * @type {Check}
 */
function name(token) {
  if (!NAME.test(token)) return false;
  if (!token.includes('%')) return token.length <= LONGEST_NAME;
  if (token.replace(/%../g, '.').length > LONGEST_NAME) return false;
  try {
    return decodeURIComponent(token) !== '';
  } catch {
    return false; // its bytes are no text
  }
}

/**
 * @param {string[]} words
 * @returns {Check}
 */
const oneOf = (...words) => (token) => words.includes(token);

const frame = [oneOf('frame'), number];
/** @type {Shape[]} */
const locations = [[oneOf('var'), number, name], [oneOf('elem'), number, name], [oneOf('slot'), number, name]];
/** @type {{[word: string]: string[]}} */
const KINDS = format.kinds;

/**
 * The shapes of a form's tokens after its keyword.
 * @param {import('../records.js').Form} form
 * @returns {Shape[]}
 */
function shapesOf({ word, arguments: given }) {
  if (given === '@') return locations;
  const shape = [...given].map((one) => (one === '"' ? name : one === '?' ? oneOf(...KINDS[word]) : number));
  return given.endsWith('?') ? [shape, [...shape.slice(0, -1), ...frame]] : [shape];
}

/**
 * The records of the format.
 * @type {Map<string, Shape[]>}
 */
const RECORD_SHAPES = new Map(FORMS.map((form) => [form.word, shapesOf(form)]));
const VERSIONS = new Map(FORMS.map(({ word, version }) => [word, version]));
/**
 * The lines of the log that are records.
 * @type {[word: string, shapes: Shape[]][]}
 */
const AS_RECORDS = [...RECORD_SHAPES].filter(([word]) => !['message', 'set', 'post'].includes(word));
const NOTES_AS_RECORDS = AS_RECORDS.filter(([word]) => !BEGINS.has(word) && RECORD_SHAPES.get(word) !== locations);

/**
 * The notes of the log, which may stand after `early`, `beside E`, `into A` and `since P`.
 * @type {Map<string, Shape[]>}
 */
const NOTE_SHAPES = new Map([...NOTES_AS_RECORDS, ['set', [[number, number, number], [number, number, oneOf('unknown')]]], ['post', [[number, number, number]]]]);
/**
 * The lines of the log (trace/spelling.js says what they mean).
 * @type {Map<string, Shape[]>}
 */
const LINE_SHAPES = new Map([
  ...AS_RECORDS, ...NOTE_SHAPES,
  ['message', [[number, number, number]]],
  ['look', [[number, name], [number, name, oneOf('capture')]]],
  ['captures', [[number]]],
  ['module', [[number]]],
  ['is', [[number, number]]],
  ['asked', [[number], [number, oneOf('known', 'unknown')]]],
  ['came', [[number, number]]],
  ['at', [[number, oneOf('var'), number, name], [number, oneOf('var'), number, name, oneOf('own')]]],
  ['in', [[number, oneOf('r', 'w', 'k'), number]]],
  ['all', [[oneOf('r', 'w'), number], [oneOf('r', 'w'), number, oneOf('own', 'first', 'same')]]],
  ['same', [[number]]],
  ['point', [[number, number, number]]],
]);
/**
 * What stands before a note that is written later than it belongs, with the number of its tokens.
 * @type {Map<string, number>}
 */
const PREFIXES = new Map([['early', 1], ['beside', 2], ['into', 2], ['since', 2]]);

/** The most frequent lines, with numbers that are small: most of a log, so their shape is one expression. */
const FREQUENT = /^(?:in (?:0|[1-9]\d{0,8}) [rwk] (?:0|[1-9]\d{0,8})|all [rw] (?:0|[1-9]\d{0,8})(?: (?:own|first|same))?)$/;

/**
 * Whether words have one of the shapes of their first word.
 * @param {Map<string, Shape[]>} shapes
 * @param {string[]} tokens
 */
function fits(shapes, [word, ...rest]) {
  const known = shapes.get(word);
  return known !== undefined && known.some((shape) => shape.length === rest.length && shape.every((check, k) => check(rest[k])));
}

/**
 * Whether a text is a record of a version of the format. Called by trace/spelling/legal.js.
 * @param {string} text
 * @param {number} version
 */
function isRecord(text, version) {
  const tokens = text.split(' ');
  return text.length <= LONGEST_LINE && fits(RECORD_SHAPES, tokens) && version >= (VERSIONS.get(tokens[0]) || 0);
}

/**
 * Whether a text is a line of the page's log. Called by trace/intake.js.
 * @param {string} text
 */
function isLine(text) {
  if (text.length > LONGEST_LINE) return false;
  if (FREQUENT.test(text)) return true;
  const tokens = text.split(' ');
  const length = PREFIXES.get(tokens[0]);
  if (length === undefined) return fits(LINE_SHAPES, tokens);
  const isOfAction = tokens[0] === 'into' && tokens[2] === 'w' && fits(LINE_SHAPES, tokens.slice(length));
  return (length === 1 || number(tokens[1] || '')) && (isOfAction || fits(NOTE_SHAPES, tokens.slice(length)));
}

module.exports = { isRecord, isLine, isNumber: number };
