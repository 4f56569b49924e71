'use strict';
// One text as it came from the network, with its start tags and functions, and a file that a bundle was made from.

const { isLibrary } = require('../common/library.js');
const { Lines } = require('../common/lines.js');
const { EditedText } = require('../instrument/edits.js');
const { LIBRARIES } = require('../options/libraries.js');

/**
 * A place in a file: the file's number, and line and column from 1.
 * @typedef {[file: number, line: number, column: number]} Place
 */

/**
 * @typedef {object} NamedFunction
 * @property {number} start
 * @property {number} end
 * @property {string} name
 * @property {NamedFunction} [outer] the function around it
 */

/** @typedef {{id?: string, source?: string, offset: number}} StartTag */
/** @typedef {import('../trace/source-map.js').SourceMap|import('../trace/source-map.js').IndexMap} AnyMap */
/** @typedef {{start: number, end: number, insert: string, again?: (insertions: Insertions) => string}} Edit `again` returns the text to insert in a further run */
/** @typedef {(address: string, html: string) => Edit[]} Insertions what a replay inserts into the page at an address */

/**
 * What marked code reports of a site: the function of a scope, or where the text of an object starts and ends.
 * @typedef {{scope?: string, object?: [start: number, end: number]}} About
 */

/**
 * Functions by where they start, each with the function around it. A bundle has thousands of them, and each place looks one up.
 * @param {NamedFunction[]} functions
 */
function nestedOf(functions) {
  /** @type {NamedFunction[]} */
  const nested = functions.map((one) => ({ ...one, outer: undefined })).sort((a, b) => a.start - b.start || b.end - a.end);
  /** @type {NamedFunction|undefined} */
  let outer;
  for (const one of nested) {
    while (outer && one.start >= outer.end) outer = outer.outer;
    one.outer = outer;
    outer = one;
  }
  return nested;
}

/**
 * The index of the last function that starts at an offset or before it, or -1.
 * @param {NamedFunction[]} nested
 * @param {number} offset
 */
function lastStarted(nested, offset) {
  let [low, high] = [0, nested.length];
  while (low < high) {
    const middle = (low + high) >> 1;
    if (nested[middle].start <= offset) low = middle + 1;
    else high = middle;
  }
  return low - 1;
}

/** Made by `Sources` for each text. */
class Source {
  /**
   * @param {import('./sources.js').Sources} sources
   * @param {string} address
   * @param {string} text
   */
  constructor(sources, address, text) {
    this.sources = sources;
    this.address = address;
    this.text = text;
    this.lines = new Lines(text);
    /** @type {Map<string, StartTag[]>} by the name of the element */
    this.tags = new Map();
    /** @type {NamedFunction[]} an outer function before those inside it */
    this.functions = [];
    /** @type {NamedFunction[]} */
    this.nested = [];
    /** @type {Map<string, string|null>} the calls in it that failed, in its own words (instrument/call-site.js) */
    this.callSites = new Map();
    /** @type {EditedText|null} the copy that the browser got first; those of other runs are in `Sources.copies` */
    this.edited = null;
    /** @type {Edit[]|null} the marks of a page, without what a replay inserts */
    this.edits = null;
    /** @type {AnyMap|null} the source map of a bundle */
    this.map = null;
    /** The address of the source map that the response named, which counts before the one in the text. */
    this.mapNamed = '';
    /** @type {Promise<void>|null} the reading of the map, once it has started */
    this.mapRead = null;
    /** @type {Map<number, number>} the numbers of the files that a bundle was made from, by their numbers in its map */
    this.originals = new Map();
    /** @type {{start: number, end: number, name: string}[]} the libraries in it, if it is not the file of one, in their order */
    this.libraries = [];
    /** @type {Map<string, number>} the numbers of the files that stand for these libraries, by name */
    this.filesOfLibraries = new Map();
    /** Its number among the files. */
    this.index = -1;
  }

  /**
   * Options of `instrument` for code at an offset of this text. Called by instrument/page.js and sources.js.
   * @param {'script'|'module'|'handler'|'address'} kind
   * @param {number} offset
   * @param {{wholeAtStart?: boolean, isFile?: boolean}} how `wholeAtStart`: all places in the code are its start
   */
  options(kind, offset, { wholeAtStart = false, isFile = false } = {}) {
    const { places, modules, builtins, depth, keepsAll } = this.sources;
    return {
      kind,
      builtins,
      depth,
      keepsAll,
      /** @type {(inside: number, about?: About) => number} */
      site: (inside, about) => places.addSite(this, offset + (wholeAtStart ? 0 : inside), wholeAtStart && about?.object ? undefined : about, offset),
      module: kind === 'module' ? this.numberOfModule(isFile) : undefined,
      numberOfModule: (/** @type {string} */ name) => modules.named(name, this.address),
      named: wholeAtStart ? undefined : (/** @type {number} */ start, /** @type {number} */ end, /** @type {string} */ name) => {
        this.functions.push({ start: offset + start, end: offset + end, name });
      },
      library: wholeAtStart || isLibrary(this.address, LIBRARIES) ? undefined : (/** @type {number} */ start, /** @type {number} */ end, /** @type {string} */ name) => {
        this.libraries.push({ start: offset + start, end: offset + end, name });
      },
    };
  }

  /**
   * The name of the library in which an offset is, or ''. Called by places.js.
   * @param {number} offset
   */
  libraryAt(offset) {
    return this.libraries.find(({ start, end }) => start <= offset && offset < end)?.name || '';
  }

  /**
   * The number of a module in this text.
   * @param {boolean} isFile whether the module is this whole text
   */
  numberOfModule(isFile) {
    const { modules } = this.sources;
    return isFile ? modules.at(this.address) : modules.add(this.address);
  }

  /**
   * The name of the innermost function that has one and contains a place, or ''. Called by places.js.
   * @param {number} line
   * @param {number} column
   */
  functionAt(line, column) {
    const at = this.lines.offsetOf(line, column);
    if (this.nested.length !== this.functions.length) this.nested = nestedOf(this.functions);
    /** @type {NamedFunction|undefined} */
    let found = this.nested[lastStarted(this.nested, at)];
    while (found && at >= found.end) found = found.outer;
    if (!found) return '';
    return this.map?.names.length ? this.originalName(found.start) || '' : found.name; // in a bundle names are cut short
  }

  /**
   * Uses a source map for all places from now on. Called by sources.js.
   * @param {AnyMap|null} map
   */
  useMap(map) {
    this.map = map;
  }

  /**
   * The name that an offset of a bundle had before the bundle was made. Called by places.js.
   * @param {number} offset
   * @returns {string|undefined}
   */
  originalName(offset) {
    const { line, column } = this.lines.placeOf(offset);
    return this.map?.original(line, column)?.name || undefined;
  }

  /**
   * Notes a start tag, with the attributes by which its element is known. Called by instrument/page.js.
   * @param {string} name
   * @param {{id?: string, source?: string}} attributes
   * @param {number} offset
   */
  noteTag(name, { id, source }, offset) {
    const tags = this.tags.get(name) || [];
    tags.push({ id, source, offset });
    this.tags.set(name, tags);
  }

  /**
   * Notes a script of a page with its marks, by the page's own text: a content policy can allow it by its hash. Called by instrument/page.js.
   * @param {string} own the text of an inline script or a handler attribute
   * @param {string} marked the text with marks
   */
  noteMarked(own, marked) {
    this.sources.markedTexts.set(own, marked);
  }

  /**
   * Counts something that the copy lacks. Called by instrument/page.js.
   * @param {string} what
   */
  drop(what) {
    this.sources.count(this.sources.dropped, what);
  }

  /**
   * Notes that code stays as it is. Called by instrument/page.js and sources.js.
   * @param {import('./unmarked.js').Unmarkable} what
   * @param {import('../instrument/syntax/types').Fault} fault
   * @param {number} start where the code is
   * @param {number} [offset] the place of the fault
   */
  miss(what, fault, start, offset = start + fault.offset) {
    this.sources.unmarked.add(what, fault, { address: this.address, ...this.lines.placeOf(offset) });
  }

  /**
   * Counts code that stays as it is, and that could be read. Called by instrument/page.js.
   * @param {string} what
   */
  leave(what) {
    this.sources.count(this.sources.missed, what);
  }

  /**
   * Makes a copy for the browser. Called by sources.js.
   * @param {Edit[]} edits
   */
  edit(edits) {
    const copy = new EditedText(this.text, edits, this.edits ? 'page' : 'script');
    this.edited = this.edited || copy;
    return copy;
  }
}

/**
 * A library in a text with other code, as a file of its own: it has the address and the places of the text. `library` is the name of the library's file. Made
 * by places.js.
 */
class LibraryPart {
  /**
   * @param {Source} source
   * @param {string} library
   */
  constructor(source, library) {
    this.source = source;
    this.address = source.address;
    this.text = source.text;
    this.library = library;
  }

  /**
   * The name of the function at a place.
   * @param {number} line
   * @param {number} column
   */
  functionAt(line, column) {
    return this.source.functionAt(line, column);
  }
}

/** A file that a bundle was made from. Its functions are those of the bundle. Made by places.js. */
class OriginalFile {
  /**
   * @param {string} address
   * @param {string} text
   */
  constructor(address, text) {
    this.address = address;
    this.text = text;
    /** @type {Map<string, string>} by line and column */
    this.functions = new Map();
  }

  /**
   * Notes the name of a function at its place. Called by places.js.
   * @param {Place} place
   * @param {string} name
   */
  noteFunction([, line, column], name) {
    this.functions.set(`${line}:${column}`, name);
  }

  /**
   * @param {number} line
   * @param {number} column
   */
  functionAt(line, column) {
    return this.functions.get(`${line}:${column}`) || '';
  }
}

module.exports = { Source, LibraryPart, OriginalFile };
