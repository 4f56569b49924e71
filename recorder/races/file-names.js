'use strict';
// Short names of files, each different from those of the other files, also of those with one base name: `load.php?modules=startup` if several are `load.php`.

/** A part of an address is shown up to this length. */
const LONGEST_PART = 40;
/** The files of a build whose name says nothing are shown with their folder. */
const INDEX = /^index\.(ts|js|mjs|tsx|jsx)$/;

/**
 * An address in parts, without its fragment.
 * @param {string} address
 * @returns {{parts: string[], query: string[]}} the parts of the path, and those of the query
 */
function partsOf(address) {
  const [, path, query = ''] = /** @type {RegExpExecArray} */ (/^([^?#]*)(?:\?([^#]*))?/s.exec(address));
  return { parts: path.split('/'), query: query.split('&').filter(Boolean) };
}

/**
 * The last part of an address.
 * @param {string} address
 */
function shortName(address) {
  const { parts } = partsOf(address);
  const name = parts[parts.length - 1];
  return INDEX.test(name) ? parts.slice(-2).join('/') : name || parts.join('/');
}

/** @param {string} part */
const cut = (part) => (part.length > LONGEST_PART ? `${part.slice(0, LONGEST_PART)}…` : part);

/**
 * What distinguishes an address from others with the same last part: the first part of the query that not all have, else the folders that differ.
 * @param {string} address
 * @param {string[]} all the addresses with this short name
 */
function apart(address, all) {
  const name = shortName(address);
  const { parts, query } = partsOf(address);
  const queries = all.map((one) => partsOf(one).query);
  const own = query.find((part) => queries.some((others) => !others.includes(part)) && queries.filter((others) => others.includes(part)).length === 1)
    || query.find((part) => queries.some((others) => !others.includes(part)));
  const isOnePath = all.every((one) => partsOf(one).parts.join('/') === parts.join('/'));
  if (own && isOnePath) return `${name}?${cut(own)}`;
  const others = all.filter((one) => one !== address).map((one) => partsOf(one).parts);
  for (let count = name.split('/').length + 1; count < parts.length; count++) {
    const end = parts.slice(-count).join('/');
    if (others.every((one) => one.slice(-count).join('/') !== end)) return end;
  }
  return own ? `${name}?${cut(own)}` : name;
}

/**
 * The short names of files by their indices. Called by thing-words.js.
 * @param {{address: string}[]} files
 * @returns {string[]}
 */
function fileNames(files) {
  const addresses = files.map(({ address }) => (address || '').replace(/#.*$/s, ''));
  /** @type {Map<string, Set<string>>} */
  const byName = new Map();
  for (const address of addresses) byName.set(shortName(address), (byName.get(shortName(address)) || new Set()).add(address));
  return addresses.map((address) => {
    const all = [...byName.get(shortName(address)) || []];
    return all.length > 1 ? apart(address, all) : shortName(address);
  });
}

module.exports = { fileNames };
