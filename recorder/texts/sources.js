'use strict';
// The texts of the pages and scripts of one run: their copies, which the browser gets, and the place in the text for a position in its copy. Which globals are
// built in, and get no mark: `builtins`.

const { HANDLER_NAMES } = require('../common/handler-names.js');
const { keptMarks } = require('../instrument/kept-marks.js');
const { BrowserNames } = require('../instrument/own-names.js');
const { PageRewriter } = require('../instrument/page.js');
const { readMap } = require('../trace/source-map.js');
const { Modules } = require('./modules.js');
const { Places } = require('./places.js');
const { Source } = require('./source.js');
const { Unmarked } = require('./unmarked.js');

/** @typedef {import('./source.js').Place} Place */
/** @typedef {import('./source.js').Edit} Edit */
/** @typedef {import('./source.js').StartTag} StartTag */
/** @typedef {import('../instrument/edits.js').EditedText} EditedText */

/** @type {import('./source.js').Insertions} */
const NO_INSERTIONS = () => [];

/** One for each run (session.js makes it), which shares files and sites with further runs of the page (`forRun`). */
class Sources {
  /**
   * @param {'globals'|'objects'} [depth] what is marked
   * @param {boolean} [keepsAll] whether first values are marked too
   * @param {Sources|null} [earlier] those of an earlier run of the page: texts, places and counts are shared
   */
  constructor(depth = 'globals', keepsAll = false, earlier = null) {
    this.depth = depth;
    this.keepsAll = keepsAll;
    /** @type {Sources|null} those of the first run */
    this.root = earlier && (earlier.root || earlier);
    /** @type {BrowserNames} the names of the browser that no script of the page has declared as its own */
    this.builtins = earlier?.builtins || new BrowserNames();
    /** @type {ReadonlySet<string>} the event handler attributes that the browser has */
    this.handlerNames = earlier?.handlerNames || new Set(HANDLER_NAMES);
    /** @type {Places} */
    this.places = earlier?.places || new Places();
    /** @type {Modules} */
    this.modules = earlier?.modules || new Modules();
    /** @type {Map<string, Source>} */
    this.byAddress = new Map(earlier?.byAddress);
    /** @type {Map<Source, EditedText>} the copies that the browser got in this run */
    this.copies = new Map();
    /** @type {Map<string, string>} the texts of inline scripts and handler attributes, each with its copy */
    this.markedTexts = earlier?.markedTexts || new Map();
    /** @type {Map<string, number>} counts of what the copies lack */
    this.dropped = earlier?.dropped || new Map();
    /** @type {Unmarked} the code that has no marks, and why */
    this.unmarked = earlier?.unmarked || new Unmarked();
    /** @type {Map<string, number>} counts of further code that has no marks */
    this.missed = earlier?.missed || new Map();
    /** @type {Map<string, number>} counts of what only the names lack */
    this.leftOut = earlier?.leftOut || new Map();
  }

  /** The same texts and sites for a further run of the page. A text that only this run gets, as what a replay inserts into it, no other run finds. */
  forRun() {
    return new Sources(this.depth, this.keepsAll, this);
  }

  get files() {
    return this.places.files;
  }

  get sites() {
    return this.places.sites;
  }

  /**
   * Counts something for `losses.js`. Called by browser/responses/copies.js and source.js.
   * @param {Map<string, number>} counts
   * @param {string} what
   */
  count(counts, what) {
    counts.set(what, (counts.get(what) || 0) + 1);
  }

  // ---- texts

  /**
   * The text of a page as the browser gets it. Called by browser/responses/copies.js and instrument/page.js.
   * @param {string} address
   * @param {string} html
   * @param {import('./source.js').Insertions} [insertions] what a replay inserts
   */
  rewritePage(address, html, insertions = NO_INSERTIONS) {
    const known = this.byAddress.get(address);
    const source = known && known.edits && known.text === html ? known : this.addSource(address, html);
    /** @type {Edit[]} */
    const marks = source.edits || new PageRewriter(html, source).rewrite(); // its sites have the same numbers in each run
    source.edits = marks;
    const edits = marks.map((edit) => (edit.again ? { ...edit, insert: edit.again(insertions) } : edit));
    return this.copy(source, [...insertions(address, html), ...edits]);
  }

  /**
   * The text of a script as the browser gets it. A script that is not JavaScript stays as it is. Called by browser/responses/copies.js and instrument/ahead.js.
   * @param {string} address
   * @param {string} code
   */
  rewriteScript(address, code) {
    const known = this.byAddress.get(address);
    if (known && known.edited && known.text === code) return known.edited.text; // as in each of several frames
    const source = this.addSource(address, code);
    let result = keptMarks.instrument(code, source.options('script', 0)); // a module that can be parsed as a script is recognized when it runs
    const { fault } = result;
    if (fault) result = keptMarks.instrument(code, source.options('module', 0, { isFile: true }));
    if (fault && result.fault) source.miss('scripts', fault.offset > result.fault.offset ? fault : result.fault, 0);
    return this.copy(source, result.edits || []);
  }

  /**
   * Makes the copy of a text by edits.
   * @param {Source} source
   * @param {Edit[]} edits
   */
  copy(source, edits) {
    const copy = source.edit(edits);
    this.copies.set(source, copy);
    return copy.text;
  }

  /**
   * Adds a text that came. The texts of all runs (`root`) get it too.
   * @param {string} address
   * @param {string} text
   */
  addSource(address, text) {
    const source = new Source(this, address, text);
    source.index = this.places.addFile(source);
    this.byAddress.set(address, source);
    this.root?.byAddress.set(address, source);
    return source;
  }

  // ---- source maps

  /**
   * Takes note of what the response of a script says about its source map. Called by browser/responses/copies.js.
   * @param {string} address
   * @param {string} map
   */
  nameMap(address, map) {
    const source = this.byAddress.get(address);
    if (source) source.mapNamed = map;
  }

  /**
   * Reads the source maps of the scripts that name one. Two runs that end at the same time wait for one reading. Called by driven/load.js and
   * recording/session.js.
   * @param {(address: string, script: string) => Promise<string|null>} read
   */
  async readMaps(read) {
    const scripts = this.files.flatMap((file) => (file instanceof Source && file.edited ? [file] : []));
    await Promise.all(scripts.map((source) => {
      source.mapRead = source.mapRead || this.readMap(source, read);
      return source.mapRead;
    }));
  }

  /**
   * Reads the source map of a text.
   * @param {Source} source
   * @param {(address: string, script: string) => Promise<string|null>} read
   */
  async readMap(source, read) {
    const map = await readMap(source.text, source.address, (address) => read(address, source.address), (why) => this.count(this.leftOut, why), source.mapNamed);
    source.useMap(map);
  }

  // ---- places

  /**
   * The name of the function around a place.
   * @param {Place} place
   */
  functionAt(place) {
    return this.places.functionAt(place);
  }

  /**
   * The place of a site. Called by trace/names.js.
   * @param {number} site
   */
  placeOfSite(site) {
    return this.places.ofSite(site);
  }

  /**
   * What a mark says about its site, as the text of its object. Called by trace/names.js.
   * @param {number} site
   */
  aboutSite(site) {
    return this.places.aboutSite(site);
  }

  /**
   * Whether a place is in a library's file. Called by recording/files.js.
   * @param {string|undefined} place
   * @param {RegExp|null} pattern
   */
  isLibrary(place, pattern) {
    return this.places.isLibrary(place, pattern);
  }

  /**
   * The copy of the text at an address that the browser got in this run. Called by driven/asked.js.
   * @param {string} address
   * @returns {{source: Source, copy: EditedText}|null}
   */
  copyAt(address) {
    const source = this.byAddress.get(address);
    const copy = source && (this.copies.get(source) || source.edited);
    return source && copy ? { source, copy } : null;
  }

  /**
   * The place of a position in the browser's copy, or null if the text has no marks. Called by trace/names.js.
   * @param {string} address
   * @param {number} line
   * @param {number} column
   * @returns {Place|null}
   */
  placeInCopy(address, line, column) {
    const found = this.copyAt(address);
    return found && this.places.placeIn(found.source, found.copy.originalPlace(line, column));
  }

  /**
   * The text of a position in the browser's copy, the offset in it, and what is known of its calls that failed. Called by recording/error-text.js.
   * @param {string} address
   * @param {number} line
   * @param {number} column
   * @returns {{text: string, offset: number, known: Map<string, string|null>}|null}
   */
  textAndOffset(address, line, column) {
    const found = this.copyAt(address);
    return found && { text: found.source.text, offset: found.copy.originalOffsetAt(line, column), known: found.source.callSites };
  }

  /**
   * The place of the next start tag in the page at an address that made an element of this name, id and `src`.
   * @param {string} address
   * @param {string} name
   * @param {{id?: string, source?: string}} attributes
   * @param {Map<string, StartTag[]>} [left] the tags whose elements are not met yet, by name and address
   * @returns {Place|null}
   */
  nextTag(address, name, { id = '', source = '' } = {}, left = new Map()) {
    const file = this.byAddress.get(address);
    const key = `${name} ${address}`;
    const tags = left.get(key) || [...(file?.tags.get(name) || [])];
    left.set(key, tags);
    const found = tags.findIndex((tag) => (tag.id || '') === (id || '') && (tag.source || '') === (source || ''));
    if (!file || found < 0) return null;
    const [tag] = tags.splice(0, found + 1).slice(-1);
    const { line, column } = file.lines.placeOf(tag.offset);
    return [file.index, line, column];
  }
}

module.exports = { Sources };
