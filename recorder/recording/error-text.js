'use strict';
// The text of each error of a page, as it is printed: as without the recorder, also if the browser names code of its copy, which has marks. Uncaught
// exceptions, and what the page writes to the console, with file, line and column.

const { ownCallSite } = require('../instrument/call-site.js');
const { SCRIPT_NAME } = require('./page-script.js');
const { shown, withoutCommands } = require('../common/shown.js');

/** @typedef {import('../texts/sources.js').Sources} Sources */
/**
 * A value as the DevTools protocol describes it.
 * @typedef {{value?: unknown, description?: string, type: string}} RemoteValue
 */
/** @typedef {{url?: string, lineNumber: number}} Position */

/**
 * An uncaught error as the DevTools protocol describes it.
 * @typedef {Position & {text?: string, exception?: RemoteValue, stackTrace?: {callFrames: Position[]}}} ExceptionDetails
 */

/** Characters of a message of the page's console. */
const LONGEST_CONSOLE = 300;
/** Stands for a mark if the page's own code is not known. */
const HIDDEN = '…';
const MARK = /__er\.\w+(?:\(\.\.\.\))?/;
const FAILED_CALL = /^(\w+: )([^]+)( is not a (?:function|constructor))$/;
/** The innermost place in an error's description: where it failed, also if other code has thrown it again. */
const FIRST_FRAME = /^ +at (?:.* \()?(\S+):(\d+):(\d+)\)?$/m;

/**
 * A text of the browser, in which a mark is code.
 * @param {string} text
 */
const withHiddenMarks = (text) => text.replace(new RegExp(MARK, 'g'), HIDDEN);

/**
 * The first line of an error's description, without marks.
 * @param {string} description
 * @param {Sources} [sources] the page's own texts, if they are known
 */
function messageOf(description, sources) {
  const [line] = description.split('\n');
  if (!MARK.test(line)) return line;
  const [, before, code, after] = FAILED_CALL.exec(line) || [];
  const [, address, row, column] = FIRST_FRAME.exec(description) || [];
  const place = code && address ? sources?.textAndOffset(address, Number(row), Number(column)) : null;
  const own = place ? ownCallSite(code, place) : null;
  return own === null ? withHiddenMarks(line) : `${before}${own}${after}`;
}

/**
 * What the page wrote to the console. Called by session.js.
 * @param {RemoteValue[]} values
 * @param {Sources} [sources]
 */
function consoleText(values, sources) {
  const texts = values.map(({ value, description, type }) => {
    if (value !== undefined) return String(value);
    return description ? messageOf(description, sources) : type;
  });
  return withoutCommands(withHiddenMarks(texts.join(' ').split('\n')[0]).slice(0, LONGEST_CONSOLE));
}

/**
 * Where an error is, outside of the recorder's own script. If nothing else ran, it is at the start of the page, as without the recorder.
 * @param {ExceptionDetails} details
 * @param {string} page
 * @returns {Position}
 */
function placeOfError({ url, lineNumber, stackTrace }, page) {
  if (url !== SCRIPT_NAME) return { url, lineNumber };
  return stackTrace?.callFrames.find((frame) => frame.url && frame.url !== SCRIPT_NAME) || { url: page, lineNumber: 0 };
}

/**
 * An uncaught error with its place. Called by driven/load.js and session.js.
 * @param {ExceptionDetails} details
 * @param {string} page its address
 * @param {Sources} [sources]
 */
function errorText(details, page, sources) {
  const { url = '', lineNumber } = placeOfError(details, page);
  const message = messageOf(details.exception?.description || details.text || '', sources);
  return `${shown(message)} (${shown(url.replace(/^.*\//, ''))}:${lineNumber + 1})`;
}

module.exports = { errorText, consoleText };
