'use strict';
// Loads Debian's parse5 and entities when the first page needs them: the two take longer to load than most pages to parse.

const Module = require('node:module');

/** Where Debian's packages of Node are. Debian's own Node looks for them here, other builds do not, and parse5 imports entities by its name alone. */
const PACKAGES = '/usr/share/nodejs';

/**
 * Of Node's loader, what its types lack: the folders that it searches, and the function that reads these from NODE_PATH.
 * @type {{globalPaths: string[], _initPaths(): void}}
 */
const loader = /** @type {any} */ (Module);

/** Lets packages find each other, also in a Node that Debian did not build. The environment stays as it is. */
function addPackages() {
  const before = process.env.NODE_PATH;
  process.env.NODE_PATH = before ? `${before}:${PACKAGES}` : PACKAGES;
  loader._initPaths();
  if (before === undefined) delete process.env.NODE_PATH;
  else process.env.NODE_PATH = before;
}

/**
 * Loads parse5, with the packages that it needs, from where Debian has them.
 * Called by tags.js.
 * @returns {typeof import('/usr/share/nodejs/parse5')}
 */
function loadParse5() {
  if (!loader.globalPaths.includes(PACKAGES)) addPackages();
  return require('/usr/share/nodejs/parse5');
}

/**
 * Called by svg-text.js.
 * @returns {typeof import('/usr/share/nodejs/entities/lib/decode')}
 */
const loadEntities = () => require('/usr/share/nodejs/entities/lib/decode');

module.exports = { loadParse5, loadEntities };
