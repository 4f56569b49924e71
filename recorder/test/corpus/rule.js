'use strict';
// The rule by which the pages of the evaluation are chosen (docs/evaluation.md, "The pages"). It knows names, sizes and texts, and nothing of what a page shows.

const { createHash } = require('node:crypto');

/**
 * @typedef {import('./packages.js').Package} Package
 * @typedef {import('./types').PageOfPackage} PageOfPackage
 * @typedef {{kind: string, most: number, name?: RegExp, names?: RegExp, section?: RegExp, description?: RegExp}} Kind
 */

/**
 * A package belongs to the first of these that it fits: by its name, by a package that it names, by its section and its description.
 * @type {Kind[]}
 */
const KINDS = [
  { kind: 'rustdoc', most: 1, name: /^rust-doc$/ },
  { kind: 'mkdocs', most: 2, name: /^mkdocs-.*doc$/ },
  { kind: 'javadoc', most: 4, name: /-java-doc$/ },
  { kind: 'haddock', most: 3, name: /^libghc-.*-doc$/ },
  { kind: 'ocamldoc', most: 3, name: /-ocaml-doc$/ },
  { kind: 'sphinx', most: 8, name: /-docs?$/, names: /\blibjs-sphinxdoc\b/ },
  { kind: 'gtk-doc', most: 4, name: /-docs?$/, names: /\bdevhelp\b/ },
  { kind: 'doxygen', most: 7, name: /-docs?$/, names: /\blibjs-jquery\b/ },
  { kind: 'editors, players, slides, charts', most: 8, section: /^(web|javascript)$/, description: /\b(editor|player|slides?|slideshow|presentation|gallery|lightbox|charts?|calendar)\b/i },
  { kind: 'libjs', most: 14, name: /^libjs-/ },
  { kind: 'other documentation', most: 6, name: /-docs?$/ },
];
/** Larger packages are left out, so that all of it is fetched in minutes. */
const MOST_SIZE = 20000000;
/** So many packages of a kind are looked at. */
const MOST_LOOKED_AT = 60;
const PAGES_OF_PACKAGE = 3;
/** Of pages that load the same files no more: they are much alike. */
const PAGES_OF_FILES = 2;
/** A page with less is taken for one without scripts. */
const LEAST_BYTES = 1000;
const PAGE = /\.x?html?$/i;

/**
 * @param {RegExp|undefined} expression
 * @param {string} text
 */
const fits = (expression, text) => !expression || expression.test(text);

/** @param {Package} one */
function kindOf(one) {
  return KINDS.find(({ name, names, section, description }) => fits(name, one.name) && fits(names, one.relations) && fits(section, one.section) && fits(description, one.description));
}

/** @param {string} name */
const rankOf = (name) => createHash('sha256').update(name).digest('hex');

/**
 * The packages of each kind, in the order in which they are looked at: that of the SHA-256 of their names.
 * @param {Map<string, Package>} packages
 * @returns {{kind: string, most: number, candidates: string[]}[]}
 */
function candidatesOf(packages) {
  /** @type {Map<Kind, {name: string, rank: string}[]>} */
  const lists = new Map(KINDS.map((kind) => [kind, []]));
  for (const one of packages.values()) {
    const kind = kindOf(one);
    if (kind && one.size <= MOST_SIZE) lists.get(kind)?.push({ name: one.name, rank: rankOf(one.name) });
  }
  return [...lists].map(([{ kind, most }, list]) => ({
    kind,
    most,
    candidates: list.sort((a, b) => (a.rank < b.rank ? -1 : 1)).slice(0, MOST_LOOKED_AT).map(({ name }) => name),
  }));
}

/** @param {string} file */
const isPage = (file) => PAGE.test(file);

/**
 * Whether a page has scripts, is no part of another one, has most of its files, stays where it is, and takes no script from another server.
 * @param {PageOfPackage} page
 */
const counts = ({ bytes, isPart, isBroken, isLeft, hasForeign }) => bytes >= LEAST_BYTES && !isPart && !isBroken && !isLeft && !hasForeign;

/**
 * The pages with the most bytes of scripts; of those that load the same files only the first ones.
 * @param {PageOfPackage[]} pages all of a package
 */
function pagesOf(pages) {
  const seen = new Map();
  const isFirst = (/** @type {PageOfPackage} */ { files }) => {
    const key = files.join('\n');
    seen.set(key, (seen.get(key) || 0) + 1);
    return seen.get(key) <= PAGES_OF_FILES;
  };
  const order = (/** @type {PageOfPackage} */ a, /** @type {PageOfPackage} */ b) => b.bytes - a.bytes || b.size - a.size || (a.page < b.page ? -1 : 1);
  return pages.filter(counts).sort(order).filter(isFirst).slice(0, PAGES_OF_PACKAGE);
}

module.exports = { KINDS, candidatesOf, kindOf, isPage, pagesOf };
