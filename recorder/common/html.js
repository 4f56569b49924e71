'use strict';
// What both halves of the recorder read in HTML: the type of a script and the code of a `javascript:` address. The page gets the functions' texts
// (page-script.js), so each uses nothing but its arguments: a page may replace what texts and patterns can do.

/**
 * @typedef {{find: (pattern: RegExp, text: string) => RegExpExecArray|null, slice: (text: string, start: number, end?: number) => string}} PatternTools
 */

/**
 * How the browser runs a script ("prepare the script element" in the HTML Standard): null if it is a data block. An attribute that is missing is null.
 * @param {string|null} type
 * @param {string|null} language
 * @param {PatternTools} tools the page passes its own
 * @returns {'classic'|'module'|'importmap'|null}
 */
function scriptType(type, language, { find } = { find: (pattern, text) => pattern.exec(text), slice: (text) => text }) {
  if (type === '' || (type === null && !language)) return 'classic';
  const trimmed = type === null ? null : find(/^[\t\n\f\r ]*([^]*?)[\t\n\f\r ]*$/, type);
  const named = trimmed ? trimmed[1] : `text/${language}`;
  if (find(/^module$/i, named)) return 'module';
  if (find(/^importmap$/i, named)) return 'importmap';
  // the JavaScript MIME types of the MIME Sniffing Standard
  return find(/^((text|application)\/(x-)?(java|ecma)script|text\/(jscript|livescript|javascript1\.[0-5]))$/i, named) ? 'classic' : null;
}

/**
 * The code of a `javascript:` address, as the URL Standard reads it: without tabs and newlines, and its escapes decoded.
 * @param {string} address
 * @param {(text: string) => string} decode decodeURIComponent
 * @param {PatternTools} tools the page passes its own
 * @returns {string|null|undefined} null for another address, '' for code that does nothing, undefined for bytes that are not UTF-8
 */
function codeOfAddress(address, decode, { find, slice } = { find: (pattern, text) => pattern.exec(text), slice: (text, start, end) => text.slice(start, end) }) {
  const trimmed = find(/^[\0- ]*(j[^]*?)[\0- ]*$/i, address);
  let text = '';
  for (let k = 0; trimmed && k < trimmed[1].length; k++) if (!find(/[\t\n\r]/, trimmed[1][k])) text += trimmed[1][k];
  const found = find(/^javascript:([^]*)$/i, text);
  if (!found) return null;
  try {
    let code = '';
    let rest = found[1];
    for (let escaped = find(/(?:%[\da-f]{2})+/i, rest); escaped; escaped = find(/(?:%[\da-f]{2})+/i, rest)) {
      code += slice(rest, 0, escaped.index) + decode(escaped[0]);
      rest = slice(rest, escaped.index + escaped[0].length);
    }
    code += rest;
    return find(/^\s*(void\s*\(?\s*0\s*\)?)?\s*;?\s*$/, code) ? '' : code;
  } catch {
    return undefined; // `decode` throws for bytes that are not UTF-8
  }
}

module.exports = { scriptType, codeOfAddress };
