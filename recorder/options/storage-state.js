'use strict';
// A browser's stored state in the format of Playwright's `storageState`: cookies, and the local storage of origins.

const fs = require('node:fs');
const { UsageFault } = require('./parse.js');

/**
 * A cookie as the DevTools protocol sets it: for an address, or for a domain and a path.
 * @typedef {{name: string, value: string, url?: string, domain?: string, path?: string, expires?: number, httpOnly?: boolean, secure?: boolean, sameSite?: string}} Cookie
 * @typedef {{origin: string, localStorage: {name: string, value: string}[]}} StoredOrigin
 * @typedef {{cookies: Cookie[], origins: StoredOrigin[]}} StorageState
 */

/**
 * Whether a value of the file is an object that has these members as texts.
 * @param {unknown} one
 * @param {string[]} members that are texts
 */
function hasTexts(one, members) {
  if (typeof one !== 'object' || one === null) return false;
  const given = /** @type {{[member: string]: unknown}} */ (one);
  return members.every((member) => typeof given[member] === 'string');
}

/**
 * A cookie with the members that the browser takes. Without a positive time it lasts as long as the browser.
 * @param {Cookie} given
 * @returns {Cookie}
 */
function cookieOf({ name, value, domain, path, expires, httpOnly, secure, sameSite }) {
  const lasts = typeof expires === 'number' && expires > 0 ? { expires } : {};
  return { name, value, domain, path: path || '/', ...lasts, httpOnly: !!httpOnly, secure: !!secure, ...(sameSite ? { sameSite } : {}) };
}

/**
 * Reads and checks the JSON of a stored state. What does not fit is a UsageFault.
 * @param {string} name of the option
 * @param {string} text
 * @returns {StorageState}
 */
function parseStorageState(name, text) {
  /** @type {Partial<StorageState>|null} */
  let given;
  try {
    given = JSON.parse(text);
  } catch {
    throw new UsageFault(`${name} takes a JSON file with cookies and origins`);
  }
  /** @type {Partial<StorageState>} */
  const { cookies = [], origins = [] } = given || {};
  const areCookies = Array.isArray(cookies) && cookies.every((one) => hasTexts(one, ['name', 'value', 'domain']));
  /** @param {StoredOrigin} one */
  const isStored = (one) => hasTexts(one, ['origin']) && Array.isArray(one.localStorage) && one.localStorage.every((item) => hasTexts(item, ['name', 'value']));
  if (!areCookies || !Array.isArray(origins) || !origins.every(isStored)) throw new UsageFault(`${name} takes a file in the format of Playwright's storageState`);
  return { cookies: cookies.map(cookieOf), origins };
}

/**
 * Reads a storage state as Playwright writes it: cookies, and `localStorage` by origin.
 * Called by recording/options.js.
 * @param {string} name of the option
 * @param {string} file
 */
function readStorageState(name, file) {
  let text;
  try {
    text = fs.readFileSync(file, 'utf8');
  } catch (fault) {
    throw new UsageFault(`${name}: ${file} cannot be read: ${/** @type {NodeJS.ErrnoException} */ (fault).code}`);
  }
  return parseStorageState(name, text);
}

module.exports = { parseStorageState, readStorageState };
