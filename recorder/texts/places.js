'use strict';
// The files of a recording, and the places in them of what marked code reports by the number of a site. Several runs of a page share them. A site is a place in
// the code that has a mark: each gets a number when its script is instrumented.

const { isLibrary } = require('../common/library.js');
const { LibraryPart, OriginalFile } = require('./source.js');

/** @typedef {import('./source.js').Place} Place */
/** @typedef {import('./source.js').Source} Source */
/** @typedef {import('./source.js').About} About */

/**
 * A number that marked code passes: a place in its text. `base` is the offset to which the offsets in `about` are relative, `address` that of its file.
 * @typedef {{source: Source, offset: number, about: About|undefined, base: number, address?: string}} Site
 */

/** The text of an object that is short enough to name it. */
const NAMING_TEXT = /^[\w$.[\]#'"()]{1,40}$/;

/**
 * The address of a file that a map names relative to its bundle.
 * @param {string} name
 * @param {string} bundle
 */
function wholeAddress(name, bundle) {
  try {
    return new URL(name, bundle).href;
  } catch {
    return name;
  }
}

/** Made by `Sources`. */
class Places {
  constructor() {
    /** @type {(Source|OriginalFile|LibraryPart)[]} */
    this.files = [];
    /** @type {Site[]} */
    this.sites = [];
  }

  /**
   * Adds a file. Returns its index. Called by sources.js.
   * @param {Source|OriginalFile|LibraryPart} file
   */
  addFile(file) {
    return this.files.push(file) - 1;
  }

  /**
   * Adds a site. Returns its number. Called by source.js.
   * @param {Source} source
   * @param {number} offset
   * @param {About|undefined} about
   * @param {number} base
   */
  addSite(source, offset, about, base) {
    return this.sites.push({ source, offset, about, base }) - 1;
  }

  /**
   * A place in a file, or, of a bundle with a source map, in the file that it was made from. A library in a file is a file of its own. Called by sources.js.
   * @param {Source} source
   * @param {{line: number, column: number}} position
   * @returns {Place}
   */
  placeIn(source, { line, column }) {
    const original = source.map && source.map.original(line, column);
    if (!original) return [this.fileAt(source, line, column), line, column];
    const index = this.originalFile(source, original.source);
    const file = this.files[index];
    /** @type {Place} */
    const place = [index, original.line, original.column];
    if (file instanceof OriginalFile) file.noteFunction(place, source.functionAt(line, column));
    return place;
  }

  /**
   * The index of the file in which a place is: of the text, or of a library in it.
   * @param {Source} source
   * @param {number} line
   * @param {number} column
   */
  fileAt(source, line, column) {
    const name = source.libraries.length ? source.libraryAt(source.lines.offsetOf(line, column)) : '';
    if (!name) return source.index;
    const known = source.filesOfLibraries.get(name);
    if (known !== undefined) return known;
    const index = this.addFile(new LibraryPart(source, name));
    source.filesOfLibraries.set(name, index);
    return index;
  }

  /**
   * The index of an original file of a source map, which is added when a place first needs it.
   * @param {Source} source
   * @param {number} number of the file in the source's map
   * @returns {number} its number among the files
   */
  originalFile(source, number) {
    const known = source.originals.get(number);
    if (known !== undefined) return known;
    const index = this.addFile(new OriginalFile(originalAddress(source, number), source.map?.texts[number] || ''));
    source.originals.set(number, index);
    return index;
  }

  /**
   * The name of the function around a place, or ''. Called by sources.js.
   * @param {Place} place
   */
  functionAt([file, line, column]) {
    return this.files[file].functionAt(line, column);
  }

  /**
   * The place of a site. Called by sources.js.
   * @param {number} site
   * @returns {Place}
   */
  ofSite(site) {
    const { source, offset } = this.sites[site];
    return this.placeIn(source, source.lines.placeOf(offset));
  }

  /**
   * Whether the code at a site is a library's, by the name of its file or by its text. Called for each access, so each site is looked up once.
   * @param {string|undefined} place of the log: the number of a site, or a position in the browser's copy
   * @param {RegExp|null} pattern
   */
  isLibrary(place, pattern) {
    const site = /^\d+$/.test(place || '') ? this.sites[Number(place)] : undefined;
    if (!site) return false;
    site.address = site.address ?? addressOfSite(site);
    return isLibrary(site.address, pattern);
  }

  /**
   * What a site says of an object or a scope. Called by sources.js.
   * @param {number} site
   * @returns {{text?: string, scope?: string}}
   */
  aboutSite(site) {
    const { source, offset, about, base } = this.sites[site];
    if (!about) return {};
    if (about.scope !== undefined) return { scope: source.originalName(offset) || about.scope };
    if (!about.object) return {};
    if (source.map) return { text: source.originalName(base + about.object[0]) };
    const text = source.text.slice(base + about.object[0], base + about.object[1]);
    return NAMING_TEXT.test(text) ? { text } : {};
  }
}

/**
 * @param {Source} source
 * @param {number} number
 */
const originalAddress = (source, number) => wholeAddress(source.map?.sources[number] ?? '?', source.address);

/**
 * The file to which a mark belongs: the original one, a library in a file with other code, or the script.
 * @param {Site} site
 */
function addressOfSite({ source, offset }) {
  const { line, column } = source.lines.placeOf(offset);
  const original = source.map && source.map.original(line, column);
  return original ? originalAddress(source, original.source) : source.libraryAt(offset) || source.address;
}

module.exports = { Places };
