'use strict';
// Import maps: their `integrity` would refuse instrumented scripts. So these hashes are dropped from `<script type=importmap>`.

const acorn = require('/usr/share/nodejs/acorn');

/**
 * Acorn's types name no kinds of nodes.
 * @typedef {{properties: {key: {value: string}, value: acorn.Node}[]}} ObjectNode
 */

/**
 * Whether a text is a JSON object.
 * @param {string} text
 */
function isObject(text) {
  try {
    const value = JSON.parse(text);
    return typeof value === 'object' && value !== null && !Array.isArray(value);
  } catch {
    return false; // the browser takes no such map either
  }
}

/**
 * The edits that empty the `integrity` of an import map. Called by page.js.
 * @param {string} text
 * @returns {{start: number, end: number, insert: string}[]}
 */
function withoutIntegrity(text) {
  if (!isObject(text)) return [];
  // Acorn reads JSON as an expression, with the place of each member
  const { properties } = /** @type {ObjectNode} */ (/** @type {unknown} */ (acorn.parseExpressionAt(text, 0, { ecmaVersion: 'latest' })));
  return properties.filter(({ key }) => key.value === 'integrity').map(({ value }) => ({ start: value.start, end: value.end, insert: '{}' }));
}

module.exports = { withoutIntegrity };
