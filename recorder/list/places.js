'use strict';
// The places of a race's two sides for other tools (json.js, sarif.js): file, line, column and function. And a file's path for the lines of the list (entries.js).

const path = require('node:path');
const { pathToFileURL } = require('node:url');
const { shown } = require('../common/shown.js');

/**
 * @typedef {import('../browser/folder.js').Folder} Folder
 * @typedef {import('./problems.js').Problems} Problems
 * @typedef {import('./types').Place} Place
 * @typedef {{file: string, line: number, column: number, function?: string}} PlainPlace
 */

/** What stays of a name in a URI: the reserved signs, and what is encoded already. */
const NOT_OF_URI = /[ "<>\\^`{|}]/g;
const WEB = /^https?:$/;
const SCHEME = /^[a-z][a-z\d+.-]*:(?:\/\/[^/]*)?/i;
const LONGEST_NAME = 300;

/**
 * The place of each access, or that of its action or its element; null if none is known.
 * @param {Pick<Problems, 'words'|'report'>} problems
 * @param {number} race
 * @returns {(Place|null)[]}
 */
function placesOf({ words, report }, race) {
  const { lines, actions } = report.races[race];
  return lines.map((line, k) => words.placeOfAccess(line, actions[k]));
}

/**
 * A file of the recorded folder: its path from the current folder if it is inside, else its `file:` address. Null for a name that leads out of the folder.
 * @param {string} address
 * @param {Folder} folder
 */
function uriOfFile(address, folder) {
  const file = fileOf(address, folder);
  if (file === null || !isInside(folder.root, file)) return null;
  if (!isInside(process.cwd(), file)) return pathToFileURL(file).href;
  return path.relative(process.cwd(), file).split(path.sep).map(encodeURIComponent).join('/');
}

/**
 * The path of a file of the served folder in it; null if an address is none of its files.
 * @param {string} address
 * @param {Folder} folder
 */
function fileOf(address, folder) {
  try {
    return folder.pathOf(address);
  } catch {
    return null; // a % that encodes nothing, in a name that is no file's address
  }
}

/**
 * Whether a file is in a folder, or is that folder.
 * @param {string} folder
 * @param {string} file
 */
function isInside(folder, file) {
  const inside = path.relative(folder, file);
  return inside !== '..' && !inside.startsWith(`..${path.sep}`) && !path.isAbsolute(inside);
}

/**
 * A file of the recorded folder as its path from the current folder, which terminals and editors open; null for any other.
 * @param {string|undefined} address
 * @param {Folder|null} folder
 */
function pathInFolder(address, folder) {
  const file = address && folder?.has(address) ? fileOf(address, folder) : null;
  return file !== null && folder && isInside(folder.root, file) && isInside(process.cwd(), file) ? shown(path.relative(process.cwd(), file)) : null;
}

/** @param {string} text */
function decoded(text) {
  try {
    return decodeURIComponent(text);
  } catch {
    return text; // a % that encodes nothing is a part of the name
  }
}

/**
 * The URI of a file for other tools, which may open it. A name out of a source map can be anything: of addresses only http and https stay, and of
 * `file:` addresses those inside the recorded folder. Of others, as `webpack://app/./src/a.js`, the path stays, as a relative reference.
 * @param {string} address
 * @param {Folder|null} folder
 */
function uriOf(address, folder) {
  if (folder?.has(address)) return uriOfFile(address, folder) ?? asRelative(address);
  const url = parsed(address);
  if (!url) return asRelative(address);
  if (WEB.test(url.protocol)) return url.href.replace(NOT_OF_URI, encodeURIComponent);
  const isOfFolder = url.protocol === 'file:' && folder && isInside(folder.root, path.normalize(decoded(url.pathname)));
  return isOfFolder ? url.href.replace(NOT_OF_URI, encodeURIComponent) : asRelative(address);
}

/**
 * A relative reference for a name: nothing in it is read as a scheme, a host, or a way out of a folder.
 * @param {string} name
 */
function asRelative(name) {
  const parts = name.slice(0, LONGEST_NAME).replace(SCHEME, '').split(/[/\\]+/).filter((part) => part && part !== '.' && part !== '..');
  return parts.map((part) => encodeURIComponent(decoded(part).replace(/\p{Cs}/gu, '\ufffd'))).join('/') || 'unknown';
}

/** @param {string} address */
function parsed(address) {
  try {
    return new URL(address);
  } catch {
    return null; // a name out of a source map is often no address
  }
}

/**
 * A place as an object, with the path of its file if that is a file of the served folder; null if none is known.
 * @param {Problems} problems
 * @param {Place|null} place
 * @param {Folder|null} folder
 * @returns {PlainPlace|null}
 */
function plainPlace(problems, place, folder) {
  if (!place) return null;
  const { names, words: { sources } } = problems;
  const [file, line, column] = place;
  const name = sources.functionAt(place);
  return { file: uriOf(names.files[file].address, folder), line, column, ...(name ? { function: name } : {}) };
}

module.exports = { placesOf, plainPlace, pathInFolder, uriOf };
