'use strict';
// Labels of elements for a reader of the list, from their tags in the page's source: what distinguishes an element without an id (an unnamed `div`) from
// others of its kind (its text or its classes), and its attributes.

const { shown } = require('../common/shown.js');

/** Characters of a label. */
const LONGEST = 30;
/** Tags that are longer, or go on over several lines, have no label. */
const TAG = /^<([\w-]+)((?:\s+[^\s=>"']+(?:\s*=\s*(?:"[^"]*"|'[^']*'|[^\s>"']+))?)*)\s*\/?>([^<]*)/;
const VALUE = '\\s*=\\s*(?:"([^"]*)"|\'([^\']*)\'|([^\\s>"\']+))';
/** @type {{[name: string]: RegExp}} */
const ATTRIBUTES = { class: new RegExp(`\\sclass${VALUE}`, 'i'), href: new RegExp(`\\shref${VALUE}`, 'i') };
/**
 * Character references of HTML (`&amp;`) that the text of an element can have.
 * @type {{[name: string]: string}}
 */
const CHARACTERS = { amp: '&', lt: '<', gt: '>', quot: '"', '#39': "'", nbsp: ' ' };

/**
 * The label of an element, as ` "Buy now"` or `.menu.open`; '' if its tag says nothing. Called by element-words.js.
 * @param {string} source of the page, from the tag on
 * @param {string} tag
 */
function labelOf(source, tag) {
  const [, name = '', attributes = '', text = ''] = TAG.exec(source) || [];
  if (name.toLowerCase() !== tag.toLowerCase()) return '';
  const words = text.replace(/&(\w+|#39);/g, (whole, one) => CHARACTERS[one] ?? whole).trim().replace(/\s+/g, ' ');
  if (/\w/.test(words)) return ` "${shown(words.length > LONGEST ? `${words.slice(0, LONGEST).trimEnd()}..` : words)}"`;
  const own = valueIn(attributes, 'class');
  return own ? shown(own.trim().split(/\s+/).slice(0, 2).map((one) => `.${one}`).join('')) : '';
}

/**
 * The value of an attribute in a tag; '' if the tag has none. Called by without-handler.js.
 * @param {string} source of the page, from the tag on
 * @param {string} tag
 * @param {'class'|'href'} name
 */
function attributeOf(source, tag, name) {
  const [, found = '', attributes = ''] = TAG.exec(source) || [];
  return found.toLowerCase() === tag.toLowerCase() ? valueIn(attributes, name).trim() : '';
}

/** @param {string} attributes @param {string} name */
function valueIn(attributes, name) {
  const [, ...values] = ATTRIBUTES[name].exec(attributes) || [];
  return values.find(Boolean) || '';
}

module.exports = { attributeOf, labelOf };
