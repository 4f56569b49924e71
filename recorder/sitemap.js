'use strict';
// The addresses of a site's sitemap.xml, for er_page --sitemap: only those of the sitemap's own origin. Whatever the server sends is untrusted. It is
// downloaded, parsed as XML, and limited in its size.

const { CommandFault } = require('./command.js');
const { withoutCredentials } = require('./common/address.js');
const { STATUS } = require('./common/status.js');

/** @typedef {Pick<import('./recording/options.js').CommandOptions, 'headers'|'credentials'>} Access */

/** A sitemap has at most so many bytes and addresses (sitemaps.org); so many further sitemaps of an index are read. */
const LARGEST = 50 * 1024 * 1024;
const MOST_ADDRESSES = 50000;
const MOST_SITEMAPS = 100;
const LONGEST = 30000;
const LOC = /<(?:[\w-]+:)?loc\s*>\s*(?:<!\[CDATA\[([^\]]*)\]\]>|([^<]*?))\s*<\/(?:[\w-]+:)?loc\s*>/g;
const INDEX = /<(?:[\w-]+:)?sitemapindex[\s>]/;
/** @type {{[name: string]: string}} */
const ENTITIES = { amp: '&', lt: '<', gt: '>', quot: '"', apos: '\'' };

/** @param {string} text */
const withoutEntities = (text) => text.replace(/&(amp|lt|gt|quot|apos);/g, (_, name) => ENTITIES[name]);

/**
 * The address, if it is one of an origin.
 * @param {string} text @param {string} origin
 */
function addressAt(text, origin) {
  try {
    const url = new URL(withoutCredentials(text));
    return url.origin === origin ? [url.href] : [];
  } catch {
    return []; // no address
  }
}

/**
 * The addresses of one origin in a sitemap, each once.
 * @param {string} text @param {string} origin
 */
function addressesIn(text, origin) {
  const found = new Set([...text.matchAll(LOC)].flatMap(([, raw, escaped = '']) => addressAt((raw ?? withoutEntities(escaped)).trim(), origin)));
  return [...found].slice(0, MOST_ADDRESSES);
}

/**
 * The text of a response, up to the limit.
 * @param {Response} response
 */
async function textOf(response) {
  const pieces = [];
  let size = 0;
  const reader = response.body?.getReader();
  for (let piece = await reader?.read(); piece && !piece.done; piece = await reader?.read()) {
    size += piece.value.length;
    if (size > LARGEST) throw new Error(`it has more than ${LARGEST} bytes`);
    pieces.push(piece.value);
  }
  return Buffer.concat(pieces).toString();
}

/**
 * The text at an address. A redirect, another status than 2xx or no answer in time is a CommandFault.
 * @param {string} address
 * @param {Access} access
 */
async function load(address, { headers, credentials }) {
  /** @type {[string, string][]} */
  const own = credentials ? [['authorization', `Basic ${Buffer.from(`${credentials.user}:${credentials.password}`).toString('base64')}`]] : [];
  const controller = new AbortController();
  const limit = setTimeout(() => controller.abort(new Error(`no answer in ${LONGEST / 1000} s`)), LONGEST);
  try {
    const response = await fetch(address, { headers: [...headers, ...own], signal: controller.signal, redirect: 'error' });
    if (!response.ok) throw new Error(`status ${response.status}`);
    return await textOf(response);
  } catch (fault) {
    const { message, cause } = /** @type {Error & {cause?: unknown}} */ (fault);
    throw new CommandFault(`${address} cannot be read: ${cause instanceof Error ? cause.message : message}`, STATUS.noPage);
  } finally {
    clearTimeout(limit);
  }
}

/**
 * The pages of a sitemap, or of the sitemaps of an index. Called by many-pages.js.
 * @param {string} address
 * @param {Access} access
 */
async function readSitemap(address, access) {
  const { origin } = new URL(address);
  const text = await load(address, access);
  if (!INDEX.test(text)) return addressesIn(text, origin);
  /** @type {Set<string>} */
  const all = new Set();
  for (const sitemap of addressesIn(text, origin).slice(0, MOST_SITEMAPS)) addressesIn(await load(sitemap, access), origin).forEach((one) => all.add(one));
  return [...all].slice(0, MOST_ADDRESSES);
}

module.exports = { readSitemap, addressesIn };
