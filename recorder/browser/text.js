'use strict';
// Reads the bytes of a page or a script as the browser would, and writes its instrumented copy in the same encoding. The encoding (charset) is that of a byte
// order mark (BOM), of the header, of a `meta` element: UTF-8, UTF-16, windows-1252, Shift_JIS, ..

const { decodeAs, encodeBy, isOfTwoBytes, tableOf } = require('./encoders.js');
const { encodingOf, namedEncoding } = require('./encoding-name.js');

/** @type {[string, number[]][]} */
const MARKS_OF_ORDER = [['utf-8', [0xef, 0xbb, 0xbf]], ['utf-16le', [0xff, 0xfe]], ['utf-16be', [0xfe, 0xff]]];

/**
 * @typedef {object} Reading
 * @property {string} text
 * @property {(text: string) => Buffer} write makes the bytes of the copy
 * @property {string} [charset] what the content type of the copy has to name
 */

/** @param {string} text */
const writeUtf8 = (text) => Buffer.from(text);

/**
 * The bytes of a text in UTF-8 or UTF-16, whose characters all have some.
 * @param {string} label
 * @param {string} text
 */
function writeUnicode(label, text) {
  if (label === 'utf-8') return Buffer.from(text);
  const bytes = Buffer.from(text, 'utf16le');
  return label === 'utf-16le' ? bytes : bytes.swap16();
}

/**
 * Reads a text that starts with a byte order mark, which is stronger than any name.
 * @param {Buffer} bytes
 * @returns {Reading|null}
 */
function readMarked(bytes) {
  const found = MARKS_OF_ORDER.find(([, mark]) => mark.every((byte, k) => bytes[k] === byte));
  if (!found) return null;
  const [label, mark] = found;
  return { text: decodeAs(label, bytes, false) || '', write: (text) => Buffer.concat([Buffer.from(mark), writeUnicode(label, text)]) };
}

/**
 * Reads by a named encoding. If its bytes do not come back from the text, the copy is UTF-8, and its content type names that.
 * @param {string} label
 * @param {Buffer} bytes
 * @returns {Reading|null} null for an unknown label
 */
function readNamed(label, bytes) {
  const text = decodeAs(label, bytes, false);
  const encoding = encodingOf(label);
  if (text === null || encoding === null) return null;
  if (encoding === 'utf-8') return { text, write: writeUtf8 };
  const table = tableOf(encoding);
  if (table && (!isOfTwoBytes(encoding) || encodeBy(table, text).equals(bytes))) return { text, write: (copy) => encodeBy(table, copy) };
  return { text, write: writeUtf8, charset: 'utf-8' };
}

/**
 * If nothing names the encoding, the browser chooses, and reads the copy as it would have read the original: the bytes stay.
 * @param {Buffer} bytes
 * @returns {Reading}
 */
function readUnnamed(bytes) {
  const text = decodeAs('utf-8', bytes, true);
  if (text !== null) return { text, write: writeUtf8 };
  return readNamed('windows-1252', bytes) || { text: bytes.toString('latin1'), write: (copy) => Buffer.from(copy, 'latin1') };
}

/**
 * The encoding of a page in which its scripts have to be read that name none. In the others a script can be read byte by byte.
 * @param {string|null} label
 * @param {Reading} reading
 */
const encodingOfScripts = (label, { charset }) => (label !== null && (charset || isOfTwoBytes(encodingOf(label) || '')) ? label : null);

/**
 * Reads a page or a script. Called by browser/responses/copies.js and instrument/ahead.js.
 * @param {Buffer} bytes
 * @param {string} contentType
 * @param {boolean} isPage
 * @param {string|null} ofPage the encoding of a script's page, by `ofScripts`
 * @returns {Reading & {label: string|null, ofScripts: string|null}}
 */
function readText(bytes, contentType, isPage, ofPage = null) {
  const own = namedEncoding(contentType, bytes, isPage);
  const label = own || ofPage;
  const reading = readMarked(bytes) || (label && readNamed(label, bytes)) || readUnnamed(bytes);
  const charset = reading.charset || (own || !ofPage ? undefined : ofPage); // the page's copy may be in another one
  return { ...reading, ...(charset ? { charset } : {}), label, ofScripts: isPage ? encodingOfScripts(label, reading) : null };
}

module.exports = { readText };
