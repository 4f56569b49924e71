'use strict';
// The encoding that a page or a script names: in its content type, or in a `meta` element at its start. It is the charset: `Content-Type: text/html;
// charset=..`, `<meta charset>`.

/** The browser looks in so many bytes, and in more while nothing but elements of the head comes. */
const ALWAYS = 1024;
const LONGEST_HEAD = 65536;
const OF_HEAD = /^(html|head|script|noscript|style|link|meta|object|title|base)$/;
const RAW_TEXT = /^(script|style|title|textarea|iframe|xmp|noembed|noframes)$/;
const COMMENT = /<!--(?:-?>|[^]*?(?:--!?>|$))/y;
const OTHER_MARKUP = /<(?:[!?]|\/(?![a-z]))[^>]*>?/iy;
const TAG = /<(\/?)([a-z][^\t\n\f\r />]*)/iy;
const ATTRIBUTE = /[\t\n\f\r /]*(=?[^\t\n\f\r />=]+)(?:[\t\n\f\r ]*=[\t\n\f\r ]*(?:"([^"]*)"|'([^']*)'|([^\t\n\f\r >]*)))?/y;
const CHARSET_IN_CONTENT = /charset[\t\n\f\r ]*=[\t\n\f\r ]*(?:"([^"]*)"|'([^']*)'|([^"'\t\n\f\r ;][^\t\n\f\r ;]*))/i;
const PARAMETER = /;[\t\n\r ]*([^;=]*)(?:=(?:"((?:[^"\\]|\\.)*)"?[^;]*|([^;]*)))?/g;

/**
 * The name that the browser has for an encoding, or null for a label that is none. Called by text.js.
 * @param {string} label
 */
function encodingOf(label) {
  try {
    return new TextDecoder(label).encoding;
  } catch {
    return null; // TextDecoder throws for unknown labels
  }
}

/**
 * The value of the parameter `charset` of a MIME type, or null.
 * @param {string} type
 */
function charsetOf(type) {
  for (const [, name, quoted, plain] of type.matchAll(PARAMETER)) {
    const value = quoted === undefined ? (plain || '').trim() : quoted.replace(/\\(.)/g, '$1');
    if (name.toLowerCase() === 'charset' && value) return value;
  }
  return null;
}

/**
 * What a regular expression finds exactly at a place.
 * @param {RegExp} pattern
 * @param {string} text
 * @param {number} at
 */
function matchAt(pattern, text, at) {
  pattern.lastIndex = at;
  return pattern.exec(text);
}

/**
 * The attributes of a tag, of repeated ones the last, as the browser has them here, and where the tag ends.
 * @param {string} text
 * @param {number} start where its name ends
 */
function attributesAt(text, start) {
  /** @type {Map<string, string>} */
  const attributes = new Map();
  let at = start;
  for (let found = matchAt(ATTRIBUTE, text, at); found; found = matchAt(ATTRIBUTE, text, at)) {
    attributes.set(found[1].toLowerCase(), found[2] ?? found[3] ?? found[4] ?? '');
    at = ATTRIBUTE.lastIndex;
  }
  const close = text.indexOf('>', at);
  return { attributes, end: close < 0 ? text.length : close + 1 };
}

/**
 * The encoding that a `meta` element names, or null.
 * @param {Map<string, string>} attributes
 */
function encodingOfMeta(attributes) {
  const isPragma = attributes.get('http-equiv')?.toLowerCase() === 'content-type';
  const [, ...inContent] = (isPragma && CHARSET_IN_CONTENT.exec(attributes.get('content') || '')) || [];
  const encoding = encodingOf((attributes.get('charset') ?? inContent.find((label) => label !== undefined) ?? '').trim());
  return encoding && /^utf-16/.test(encoding) ? 'utf-8' : encoding; // what could be read so far was no UTF-16
}

/**
 * The encoding that a page names in itself, or null.
 * @param {Buffer} bytes
 */
function encodingInPage(bytes) {
  const text = bytes.toString('latin1', 0, LONGEST_HEAD);
  let isHead = true;
  let at = text.indexOf('<');
  while (at >= 0 && (isHead || at < ALWAYS)) {
    const other = matchAt(COMMENT, text, at) || matchAt(OTHER_MARKUP, text, at);
    const tag = other ? null : matchAt(TAG, text, at);
    let end = other ? at + other[0].length : at + 1;
    if (tag) {
      const name = tag[2].toLowerCase();
      const read = attributesAt(text, TAG.lastIndex);
      const encoding = name === 'meta' && !tag[1] && encodingOfMeta(read.attributes);
      if (encoding) return encoding;
      isHead = isHead && OF_HEAD.test(name) && !(tag[1] && /^(html|head)$/.test(name));
      end = !tag[1] && RAW_TEXT.test(name) ? endOfText(text, name, read.end) : read.end;
    }
    at = text.indexOf('<', end);
  }
  return null;
}

/**
 * Where the text of an element ends that contains no markup.
 * @param {string} text
 * @param {string} name
 * @param {number} start
 */
function endOfText(text, name, start) {
  const end = new RegExp(`</${name}[\\t\\n\\f\\r />]`, 'gi');
  end.lastIndex = start;
  return end.exec(text)?.index ?? text.length;
}

/**
 * The label of the encoding that a content type or a page names, or null. Called by text.js.
 * @param {string} contentType
 * @param {Buffer} bytes
 * @param {boolean} isPage
 */
function namedEncoding(contentType, bytes, isPage) {
  const label = charsetOf(contentType);
  if (label && encodingOf(label)) return label;
  return isPage ? encodingInPage(bytes) : null;
}

module.exports = { namedEncoding, encodingOf };
