'use strict';
// Decoders and encoders of texts. Node decodes all encodings of the Encoding Standard, and encodes two of them: the tables of the others are made by decoding
// each sequence of bytes. text.js reads and writes pages and scripts by these.

/** Windows-1252, which not every Node decodes: the characters from 0x80 on that are others than in Latin-1. */
const HIGH = '\u20ac\x81\u201a\u0192\u201e\u2026\u2020\u2021\u02c6\u2030\u0160\u2039\u0152\x8d\u017d\x8f'
  + '\x90\u2018\u2019\u201c\u201d\u2022\u2013\u2014\u02dc\u2122\u0161\u203a\u0153\x9d\u017e\u0178';
const FIRST_HIGH = 0x80;
const BYTES = 256;
const NEWLINE = 0x0a;
/** A question mark. */
const UNKNOWN = 0x3f;
/** The bytes with which a character of two bytes starts, and the first byte that may be the second one. */
const FIRST_LEAD = 0x81;
const LAST_LEAD = 0xfe;
const FIRST_TRAIL = 0x40;
/** A byte of EUC-JP before characters of two bytes. */
const OF_THREE = 0x8f;
const FIRST_OF_THREE = 0xa1;
const MOST_BYTES = 3;
const OF_TWO_BYTES = /^(gbk|gb18030|big5|euc-kr|shift_jis|euc-jp)$/;
/** In these a byte says what the next ones mean. */
const HAS_STATES = /^(iso-2022-jp|replacement)$/;
const REPLACEMENT = '\ufffd';

/** @typedef {Map<string, number[]>} Table the bytes of each character */
/** @type {Map<string, Table|null>} */
const tables = new Map();

/**
 * The text of bytes by the name of an encoding, as a page or a header gives it; null if it has no such name, or if the bytes are none of it and `fatal` is set.
 * Called by text.js.
 * @param {string} label
 * @param {Buffer} bytes
 * @param {boolean} fatal
 */
function decodeAs(label, bytes, fatal) {
  try {
    const decoder = new TextDecoder(label, { fatal });
    if (decoder.encoding !== 'windows-1252') return decoder.decode(bytes);
    return bytes.toString('latin1').replace(/[\x80-\x9f]/g, (character) => HIGH[character.charCodeAt(0) - FIRST_HIGH]);
  } catch {
    return null; // an unknown label, or bytes that are none of it
  }
}

/**
 * Decodes sequences of bytes, each of them alone: no character contains a newline's byte. Of several sequences of a character the first one stays: all are
 * decoded as it, so the copy has the same text by any.
 * @param {Table} table
 * @param {string} encoding
 * @param {number[][]} sequences
 */
function addSequences(table, encoding, sequences) {
  const texts = (decodeAs(encoding, Buffer.from(sequences.flatMap((sequence) => [...sequence, NEWLINE])), false) || '').split('\n');
  sequences.forEach((sequence, k) => {
    const [character, ...more] = texts[k];
    if (character && !more.length && character !== REPLACEMENT && !table.has(character)) table.set(character, sequence);
  });
}

/**
 * @param {number} first
 * @param {number} last
 */
const range = (first, last) => Array.from({ length: last - first + 1 }, (_, k) => first + k);

/**
 * The characters that an encoding has by one byte each.
 * @param {string} encoding
 */
function tableOfBytes(encoding) {
  /** @type {Table} */
  const table = new Map([['\n', [NEWLINE]]]);
  addSequences(table, encoding, range(0, BYTES - 1).filter((byte) => byte !== NEWLINE).map((byte) => [byte]));
  return table;
}

/**
 * And those of two bytes; of three in EUC-JP.
 * @param {string} encoding
 */
function tableOfTwoBytes(encoding) {
  const table = tableOfBytes(encoding);
  for (const lead of range(FIRST_LEAD, LAST_LEAD)) addSequences(table, encoding, range(FIRST_TRAIL, LAST_LEAD).map((trail) => [lead, trail]));
  if (encoding !== 'euc-jp') return table;
  for (const second of range(FIRST_OF_THREE, LAST_LEAD)) addSequences(table, encoding, range(FIRST_OF_THREE, LAST_LEAD).map((third) => [OF_THREE, second, third]));
  return table;
}

/**
 * The table of an encoding other than UTF-8 and UTF-16, or null if its characters have no bytes of their own.
 * @param {string} encoding
 */
function tableOf(encoding) {
  let table = tables.get(encoding);
  if (table === undefined) {
    table = HAS_STATES.test(encoding) ? null : isOfTwoBytes(encoding) ? tableOfTwoBytes(encoding) : tableOfBytes(encoding);
    tables.set(encoding, table);
  }
  return table;
}

/** @param {string} encoding */
const isOfTwoBytes = (encoding) => OF_TWO_BYTES.test(encoding);

/**
 * The bytes of a copy of a text, in the encoding of the original. A character that the encoding lacks becomes a question mark. Called by text.js.
 * @param {Table} table
 * @param {string} text
 */
function encodeBy(table, text) {
  const bytes = Buffer.alloc(text.length * MOST_BYTES);
  let length = 0;
  for (const character of text) {
    for (const byte of table.get(character) || [UNKNOWN]) bytes[length++] = byte;
  }
  return bytes.subarray(0, length);
}

module.exports = { decodeAs, tableOf, encodeBy, isOfTwoBytes };
