'use strict';
// Values as they are in a mark.

const NAME = /^[\w$]+$/;

/** @param {string} sign */
const escaped = (sign) => `\\u${sign.charCodeAt(0).toString(16).padStart(4, '0')}`;

/**
 * What JSON can say. It ends neither the mark nor the script of a page, and is the same in all encodings.
 * @param {unknown} value
 */
const quoteAny = (value) => JSON.stringify(value).replace(/\*\/|<[/!]/g, ([first, second]) => `${first}\\${second}`).replace(/[\u007f-\uffff]/g, escaped);

/**
 * The same. Most texts are names, which need no escapes.
 * @param {unknown} value
 * @returns {string}
 */
const quote = (value) => (typeof value === 'string' && NAME.test(value) ? `"${value}"` : quoteAny(value));

/**
 * The same for a text that has many quotation marks. Called by instrument/insert/shapes.js.
 * @param {unknown[]} list
 */
const quoteList = (list) => `'${quote(list).replace(/'/g, "\\'")}'`;

module.exports = { quote, quoteList };
