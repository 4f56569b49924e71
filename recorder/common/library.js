'use strict';
// Which files are those of libraries. The page calls `foreignness` too and gets its text (page-script.js), so it uses only its parameters: a page may
// replace what texts and patterns can do.

/**
 * How little a file says about the page: 0 for the page's own code, 1 for a minified file, 2 for a library.
 * @param {string} address
 * @param {RegExp|null} libraries the names of their files; null if none is told apart
 * @param {(pattern: RegExp, text: string) => RegExpExecArray|null} find
 * @returns {0|1|2}
 */
function foreignness(address, libraries, find = (pattern, text) => pattern.exec(text)) {
  if (!libraries) return 0;
  const name = (find(/^(?:[^?#]*\/)?([^/?#]*)/, address) || ['', ''])[1];
  if (find(/^(?:[^?#]*\/)?node_modules\//, address) || find(libraries, name)) return 2;
  return find(/\.min\.m?js$/i, name) ? 1 : 0;
}

/**
 * Whether a file is a library's. Called by texts/places.js and texts/source.js.
 * @param {string} address
 * @param {RegExp|null} libraries
 */
const isLibrary = (address, libraries) => foreignness(address, libraries) === 2;

module.exports = { foreignness, isLibrary };
