'use strict';
// Where the source map of a script is: the address that its response or its last lines name. The header `SourceMap`, or the comment `//# sourceMappingURL=..`,
// also a `data:` address.

/** Lines after the comment may name the script itself, or be comments too. */
const LAST_LINES = 6;
const COMMENT = /^..[#@][ \t]*sourceMappingURL=[ \t]*([^\s'"]+)[ \t]*(?:\*\/[ \t]*)?$/;
const STARTS = ['//#', '//@', '/*#', '/*@'];

/**
 * The last lines of a text from the end on; empty ones after the last one do not count.
 * @param {string} text
 * @returns {Generator<string>}
 */
function* lastLines(text) {
  const whole = text.trimEnd();
  let end = whole.length;
  for (let count = 0; count < LAST_LINES && end > 0; count++) {
    const start = whole.lastIndexOf('\n', end - 1) + 1;
    yield whole.slice(start, end).trimEnd();
    end = start - 1;
  }
}

/**
 * What the last comment of a line names; it may come after code.
 * @param {string} line
 */
function namedIn(line) {
  const start = Math.max(...STARTS.map((one) => line.lastIndexOf(one)));
  return start < 0 ? undefined : COMMENT.exec(line.slice(start))?.[1];
}

/**
 * The address of a script's source map, or null. Called by source-map.js.
 * @param {string} text
 * @param {string} address of the script
 * @param {string} named by its response, which counts before the text
 */
function addressOfMap(text, address, named = '') {
  let found = /** @type {string|undefined} */ (named);
  for (const line of found ? [] : lastLines(text)) {
    found = namedIn(line);
    if (found || !/^[ \t]*(?:\/\/|\/\*|\*|$)/.test(line)) break;
  }
  if (!found) return null;
  try {
    return new URL(found, address).href;
  } catch {
    return null; // no address
  }
}

/**
 * The text of a map that is in its own address; null if the address is another one. Called by source-map.js.
 * @param {string} address
 */
function textInAddress(address) {
  const found = /^data:[^,]*?(;base64)?,(.*)$/s.exec(address);
  if (!found) return null;
  return found[1] ? Buffer.from(found[2], 'base64').toString() : decodeURIComponent(found[2]);
}

module.exports = { addressOfMap, textInAddress };
