'use strict';
// The pages of Debian packages that packaged.json lists.

const fs = require('node:fs');
const path = require('node:path');

/**
 * A page of a package, with the options of its recording; `root` is the folder that is served.
 * @typedef {{package: string, page: string, root?: string, words: string[]}} PackagedPage
 */

/**
 * All pages, or those of some packages.
 * @param {string[]} only
 * @returns {PackagedPage[]}
 */
function readPackaged(only) {
  /** @type {PackagedPage[]} */
  const pages = JSON.parse(fs.readFileSync(path.join(__dirname, 'packaged.json'), 'utf8'));
  return pages.filter(({ package: name }) => !only.length || only.includes(name));
}

/**
 * Whether the package of a page is installed.
 * @param {{page: string}} page
 */
const isInstalled = ({ page }) => fs.existsSync(page.replace(/[?#].*$/, ''));

module.exports = { readPackaged, isInstalled };
