'use strict';
// Libraries inside of a file with other code, as a server or a build puts several files into one: by what a library has in any copy, also a minified one.
// Libraries in a bundle: jQuery by what it sets, others by their banner comment (`/*! ..`).

const { LIBRARIES } = require('../../options/libraries.js');
const { childAt, isFunction, keysOf } = require('./children.js');

/**
 * @typedef {import('./types').Node} Node
 * @typedef {import('./types').Program} Program
 */
/**
 * A part of a text, and the name that a file of it would have.
 * @typedef {{start: number, end: number, name: string}} LibraryPart
 */

/** The prototype of jQuery's objects: `C.fn=C.prototype={jquery:e`, also with comments before the member. */
const PROTOTYPE = /\.fn\s*=\s*([\w$]+)\.prototype\s*=\s*\{/g;
const VERSION = /(?:\s|\/\/.*|\/\*[^]*?\*\/)*jquery\s*:/y;
const LONGEST_NAME = 40;
/** How jQuery's function ends: it returns or sets jQuery. That of a bundle which has jQuery among other code ends otherwise. */
const SETS_JQUERY = /\.jQuery\s*=|define\(\s*["']jquery["']/;
/** `/*! jQuery UI - v1.13.2`: the comment that every copy keeps, with the name and the version of what comes after it. */
const BANNER = /\/\*!/g;
const BEGIN = '/*!';
const END = '*/';
const HEAD = /^[\s*]*([A-Za-z][\w.-]*(?: (?!v?\d|version\b)[A-Za-z][\w.-]*){0,3})[\s,:-]*(?:version\s+|v)?\d+\.\d/;
const LONGEST_HEAD = 200;
/** Each is looked for in the whole tree, so no more are. */
const MOST_PARTS = 200;
const BETWEEN = /(?:\s|\/\/.*|\/\*[^]*?\*\/|;)*/y;

/**
 * The nodes that contain an offset, from the program to the innermost one.
 * @param {Program} program
 * @param {number} offset
 */
function nodesAt(program, offset) {
  /** @type {Node[]} */
  const nodes = [];
  /** @type {Node|undefined} */
  let node = program;
  while (node) {
    nodes.push(node);
    const own = node;
    /** @type {(Node|null|undefined)[]} */
    const children = keysOf(own).flatMap((key) => childAt(own, key));
    node = children.find((child) => !!child && child.start <= offset && offset < child.end) || undefined;
  }
  return nodes;
}

/**
 * Where a pattern ends that fits exactly at an offset; -1 if it does not. The pattern is sticky.
 * @param {RegExp} pattern that has the flag y
 * @param {string} text
 * @param {number} offset
 * @returns {number} the end of what fits at an offset, or -1
 */
function endAt(pattern, text, offset) {
  pattern.lastIndex = offset;
  return pattern.test(text) ? pattern.lastIndex : -1;
}

/**
 * Whether the last statement of a function is jQuery's.
 * @param {string} code
 * @param {import('./types').FunctionNode} node
 * @param {string} name that jQuery has there
 */
function endsAsJquery(code, { body }, name) {
  const last = body.type === 'BlockStatement' ? body.body[body.body.length - 1] : null;
  if (!last) return false;
  const text = code.slice(last.start, last.end).replace(/[;\s]+$/, '');
  return SETS_JQUERY.test(text) || (last.type === 'ReturnStatement' && text.slice('return'.length).trim() === name);
}

/**
 * The functions that make jQuery.
 * @param {string} code
 * @param {Program} program
 * @returns {LibraryPart[]}
 */
function jqueryParts(code, program) {
  return [...code.matchAll(PROTOTYPE)].slice(0, MOST_PARTS).flatMap(({ index = 0, 0: text, 1: name }) => {
    const isNamed = name.length <= LONGEST_NAME && code.slice(index - name.length, index) === name;
    if (!isNamed || endAt(VERSION, code, index + text.length) < 0) return [];
    const made = nodesAt(program, index).filter(isFunction).pop();
    return made && endsAsJquery(code, made, name) ? [{ start: made.start, end: made.end, name: 'jquery.js' }] : [];
  });
}

/**
 * The statements that come after a comment with the name and the version of a library.
 * @param {string} code
 * @param {Program} program
 * @returns {LibraryPart[]}
 */
function partsAfterBanners(code, program) {
  const banners = [...code.matchAll(BANNER)].flatMap(({ index = 0 }) => {
    const name = HEAD.exec(code.slice(index + BEGIN.length, index + LONGEST_HEAD).split(END)[0])?.[1].replace(/ /g, '-');
    return name && LIBRARIES.test(`${name}.js`) ? [{ index, name: `${name}.js` }] : [];
  });
  return banners.slice(0, MOST_PARTS).flatMap(({ index, name }) => {
    const end = code.indexOf(END, index + BEGIN.length);
    if (end < 0) return [];
    const start = endAt(BETWEEN, code, end + END.length);
    const statement = nodesAt(program, start).find((node) => node.start === start && node.type !== 'Program');
    return statement ? [{ start, end: statement.end, name }] : [];
  });
}

/**
 * The parts of a text that are known libraries, in their order, and none inside of another one. Called by instrument/instrument.js.
 * @param {string} code
 * @param {Program} program
 */
function libraryParts(code, program) {
  const all = [...jqueryParts(code, program), ...partsAfterBanners(code, program)];
  const isInside = (/** @type {LibraryPart} */ one, /** @type {LibraryPart} */ other) => other.start <= one.start && one.end <= other.end && other !== one;
  return all.filter((one) => !all.some((other) => isInside(one, other))).sort((a, b) => a.start - b.start);
}

module.exports = { libraryParts };
