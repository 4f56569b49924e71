// Names as the format writes them. A space, a newline and other characters of an id or a key are escaped (`%20`), and a long name is cut.

import { digitsOf, fits, found, sliceOf } from '../core/strings.js';
import { Map, Math, String, TextEncoder, Uint8Array, apply } from '../core/taken.js';

/** Bytes: the limit of the format (docs/format.md). */
const LONGEST_NAME = 255;
/** Upper case, so that a name is written in one way (docs/format.md). */
const DIGITS = '0123456789ABCDEF';
/** Whole characters, also those of two units. */
const FIRST_CHARACTERS = /^[^]{0,55}/u;

const encoder = new TextEncoder();
const { encode } = encoder;

/** @type {Map<string, string>} */
const spelledNames = new Map();
/** So many written names are remembered: most come again and again. */
const MOST_SPELLED = 20000;

/**
 * A name as the format writes it.
 * @param {unknown} text a name or a symbol
 * @returns {string}
 */
function spellName(text) {
  const name = String(text);
  let spelled = spelledNames.get(name);
  if (spelled === undefined) {
    spelled = fits(/^[!-$&-~]{1,255}$/, name) ? name : spellBytes(name);
    if (spelledNames.size < MOST_SPELLED) spelledNames.set(name, spelled);
  }
  return spelled;
}

/** @param {string} text @returns {Uint8Array} */
const bytesOf = (text) => apply(encode, encoder, [text]);

/**
 * A name that is too long is cut, with a hash of the whole after it.
 * @param {string} text
 */
function spellBytes(text) {
  let bytes = bytesOf(text);
  if (bytes.length === 0) bytes = new Uint8Array(1);
  if (bytes.length > LONGEST_NAME) bytes = bytesOf(cutName(text, bytes));
  let spelled = '';
  for (let k = 0; k < bytes.length; k++) {
    const byte = bytes[k];
    const isItself = byte >= 0x21 && byte <= 0x7e && byte !== 0x25;
    spelled += isItself ? String.fromCharCode(byte) : `%${DIGITS[byte >> 4]}${DIGITS[byte & 15]}`;
  }
  return spelled;
}

/**
 * The prefix of a long name and 32 hexadecimal digits for the whole.
 * @param {string} text
 * @param {Uint8Array} bytes
 */
function cutName(text, bytes) {
  let digits = '';
  for (let seed = 1; seed <= 4; seed++) {
    let value = seed * 0x9e3779b1;
    for (let k = 0; k < bytes.length; k++) value = Math.imul(value ^ bytes[k], 0x01000193) >>> 0;
    digits += sliceOf(`0000000${digitsOf(value, 16)}`, -8);
  }
  return (found(FIRST_CHARACTERS, text) || [''])[0] + digits;
}

export { spellName };
