'use strict';
// What a pattern (destructuring) takes of a value, as a text of JSON that the page's helper reads (page/objects/patterns.js): `["{","a",0,"b",["[",0,0]]` of
// `{a, b: [c, d]}`. A read by destructuring, with its defaults and rest. After "{" come a key and what its value is taken apart into, or 0; after "[" that of
// each item, or null for none; "..." takes the rest. Used by value-marks.js.

const { quoteList } = require('../marks/quote.js');

/**
 * @typedef {import('../syntax/types').Pattern} Pattern
 * @typedef {import('../syntax/types').ObjectPattern|import('../syntax/types').ArrayPattern} TakingPattern
 * @typedef {(string|number|null|ShapeList)[]} ShapeList
 */

/**
 * @param {Pattern} pattern
 * @returns {pattern is TakingPattern}
 */
const isTakingPattern = (pattern) => pattern.type === 'ObjectPattern' || pattern.type === 'ArrayPattern';

/**
 * The shape of an item of an array pattern.
 * @param {Pattern|null} element
 * @returns {ShapeList|string|number|null}
 */
function shapeOfItem(element) {
  if (element === null) return null;
  return element.type === 'RestElement' ? '...' : shapeOfTarget(element);
}

/**
 * What is taken of the value that a target gets: a list if the target is a pattern; 0 if nothing more.
 * @param {Pattern} target
 * @returns {ShapeList|number}
 */
function shapeOfTarget(target) {
  const inner = target.type === 'AssignmentPattern' ? target.left : target;
  return isTakingPattern(inner) ? listOf(inner) : 0;
}

/**
 * A property of an object pattern: its name and its shape. A computed name is left out.
 * @param {import('../syntax/types').PatternProperty|import('../syntax/types').RestElement} property
 * @returns {ShapeList}
 */
function shapeOfProperty(property) {
  if (property.type === 'RestElement') return ['...'];
  const { computed, key, value } = property;
  if (computed) return [];
  return [key.type === 'Identifier' ? key.name : String(key.type === 'Literal' && key.value), shapeOfTarget(value)];
}

/**
 * A pattern as a list, as the helper of the page gets it (page/objects/patterns.js).
 * @param {TakingPattern} pattern
 * @returns {ShapeList}
 */
function listOf(pattern) {
  if (pattern.type === 'ArrayPattern') return ['[', ...pattern.elements.map(shapeOfItem)];
  return ['{', ...pattern.properties.flatMap(shapeOfProperty)];
}

/**
 * The shape of a pattern as it is in a call, or '' if it takes nothing that is known.
 * @param {TakingPattern} pattern
 */
function shapeOf(pattern) {
  const list = listOf(pattern);
  return list.length > 1 ? quoteList(list) : '';
}

/**
 * The patterns among a function's parameters, with their indexes.
 * @param {Pattern[]} parameters
 * @returns {{pattern: TakingPattern, index: number}[]}
 */
function patternsOf(parameters) {
  return parameters.flatMap((parameter, index) => {
    const pattern = parameter.type === 'AssignmentPattern' ? parameter.left : parameter;
    return isTakingPattern(pattern) ? [{ pattern, index }] : [];
  });
}

module.exports = { shapeOf, patternsOf, isTakingPattern };
