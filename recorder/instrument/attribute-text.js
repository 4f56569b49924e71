'use strict';
// Writes texts into a page so that the browser reads them as they are: into attributes, and into scripts that are markup. Quotes and `&` are escaped.

const NAMED = new Map([['&', '&amp;'], ['"', '&quot;'], ['<', '&lt;']]);

/** @param {string} character */
const referenceTo = (character) => NAMED.get(character) || `&#${character.codePointAt(0)};`;

/**
 * An attribute's value with its quotation marks. A carriage return would be read as a newline; a character that the page does not contain yet may be missing
 * from its encoding. Called by page.js.
 * @param {string} text
 * @param {string} original the attribute as it is in the page
 */
function encodeValue(text, original) {
  const isKept = (/** @type {string} */ character) => character > '\x7f' && original.includes(character);
  return `"${text.replace(/[&"\r]|[^\x00-\x7f]/gu, (character) => (isKept(character) ? character : referenceTo(character)))}"`;
}

/**
 * A piece of text between tags. Called by svg-text.js.
 * @param {string} text
 */
const encodeText = (text) => text.replace(/[&<\r]|[^\x00-\x7f]/gu, referenceTo);

module.exports = { encodeValue, encodeText };
