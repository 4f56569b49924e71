'use strict';
// How many bytes of scripts a page loads, as its text says: those that are in it, and the files that it names.

const fs = require('node:fs');
const path = require('node:path');
const { kindOfScript } = require('../../instrument/page.js');
const { readTags, attributeOf } = require('../../instrument/tags.js');

/** @typedef {import('../../instrument/tags.js').Tag} Tag */

const OF_ANOTHER_SERVER = /^(?:https?:)?\/\//i;
const OTHER_SCHEME = /^[a-z][\w+.-]*:/i;

/** @param {string} text */
function decoded(text) {
  try {
    return decodeURIComponent(text);
  } catch {
    // an address with a lone %
    return text;
  }
}

/**
 * The file that an address in a page means; null where it is none of the root.
 * @param {string} address
 * @param {string} page
 * @param {string} base
 * @param {string} root
 */
function fileOf(address, page, base, root) {
  const way = decoded(address.replace(/[?#].*$/s, ''));
  if (!way || OTHER_SCHEME.test(way)) return null;
  const file = way.startsWith('/') ? path.join(root, way) : path.resolve(path.dirname(page), base, way);
  return file.startsWith(`${root}${path.sep}`) ? file : null;
}

/**
 * The size of a file, or 0 where there is none under the root.
 * @param {string} file
 * @param {string} root
 */
function sizeOf(file, root) {
  try {
    const real = fs.realpathSync(file);
    const { size } = fs.statSync(real);
    return real.startsWith(`${fs.realpathSync(root)}${path.sep}`) && fs.statSync(real).isFile() ? size : 0;
  } catch {
    // there is no such file
    return 0;
  }
}

/**
 * @param {Tag|undefined} tag
 * @param {string} name
 */
const valueOf = (tag, name) => tag && attributeOf(tag, name)?.value.trim();

/**
 * @param {string} html
 * @param {Tag[]} tags
 */
const hasTitle = (html, tags) => tags.some(({ name, text }) => name === 'title' && text && html.slice(text.start, text.end).trim());

/** @param {Tag} tag */
const leavesAtOnce = (tag) => tag.name === 'meta' && /^refresh$/i.test(valueOf(tag, 'http-equiv') || '');

/**
 * @param {string} html the page's text, a character a byte
 * @param {string} page its file
 * @param {string} root the folder that is served
 * @returns {import('./types').Scripts}
 */
function scriptsOf(html, page, root) {
  const tags = readTags(html).filter(({ inTemplate }) => !inTemplate);
  const base = valueOf(tags.find((tag) => tag.name === 'base' && attributeOf(tag, 'href')), 'href') || '.';
  const scripts = tags.filter((tag) => tag.name === 'script' && kindOfScript(tag));
  const addresses = scripts.map((tag) => valueOf(tag, 'src'));
  const inside = scripts.filter((tag, k) => addresses[k] === undefined).reduce((sum, { text }) => (text ? sum + text.end - text.start : sum), 0);
  /** @type {Map<string, number>} */
  const sizes = new Map();
  /** @type {Set<string>} */
  const missing = new Set();
  for (const address of addresses) {
    if (!address) continue;
    const file = fileOf(address, page, OTHER_SCHEME.test(base) || base.startsWith('/') ? '.' : base, root);
    const size = file ? sizeOf(file, root) : 0;
    if (file && size) sizes.set(file.slice(root.length), size);
    else missing.add(address);
  }
  return {
    bytes: [...sizes.values()].reduce((sum, size) => sum + size, inside),
    files: [...sizes.keys()].sort(),
    isPart: !hasTitle(html, tags),
    isBroken: missing.size > sizes.size,
    isLeft: tags.some(leavesAtOnce),
    hasForeign: addresses.some((address) => address && OF_ANOTHER_SERVER.test(address)),
  };
}

module.exports = { scriptsOf };
