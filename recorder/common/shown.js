'use strict';
// A text of a page as it is shown to a reader: cut (truncated, shortened) if it is long, and without what a terminal or a browser takes for a command. Control characters of a
// terminal are written as escapes (`\u{1b}`).

/** Control characters, line ends, what changes the direction of a text, and halves of characters. */
const COMMANDS = /[\u0000-\u001f\u007f-\u009f\u061c\u200e\u200f\u2028-\u202e\u2066-\u2069]|\p{Cs}/gu;
/** A text that has none of them, as most have. */
const PLAIN = /^[ -~]*$/;
/** JSON escapes the others itself, and its line ends are its own. */
const OF_JSON = /[\u007f-\u009f\u061c\u200e\u200f\u2028-\u202e\u2066-\u2069]/g;
/** More than the longest name of the format. */
const LONGEST = 260;

/**
 * Each command as `\u{1b}`.
 * @param {unknown} text
 */
function withoutCommands(text) {
  const given = String(text);
  return PLAIN.test(given) ? given : given.replace(COMMANDS, (sign) => `\\u{${/** @type {number} */ (sign.codePointAt(0)).toString(16)}}`);
}

/**
 * A text as a reader gets it: cut after LONGEST characters, without control characters.
 * @param {unknown} text
 */
function shown(text) {
  const given = String(text);
  return given.length > LONGEST ? `${withoutCommands(given.slice(0, LONGEST))}…` : withoutCommands(given);
}

/**
 * A text in a page. Called by list/loads-page.js and view/html.js.
 * @param {unknown} text
 */
const escapeText = (text) => withoutCommands(text).replace(/[&<>"']/g, (one) => `&#${one.charCodeAt(0)};`);

/**
 * A value as JSON, in which each command is written as an escape: who prints the file commands no terminal.
 * @param {unknown} value
 * @param {number} [indent]
 * @param {(key: string, value: unknown) => unknown} [replacer] as of `JSON.stringify`
 */
const jsonText = (value, indent, replacer) => JSON.stringify(value, replacer, indent)
  .replace(OF_JSON, (sign) => `\\u${sign.charCodeAt(0).toString(16).padStart(4, '0')}`);

module.exports = { shown, withoutCommands, escapeText, jsonText };
