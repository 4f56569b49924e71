'use strict';
// OUT.names.json: what each number of a trace is, and the place in the page's own text of each line, if it is known. Files and sources, elements, requests,
// timers, objects, functions, and the stack of each line.

const { fileAddress } = require('../browser/folder.js');
const { foreignness } = require('../common/library.js');
const { redactedValue } = require('../common/secrets.js');
const { FIRST_FIELD, FIRST_MODULE, FIRST_OBJECT } = require('../common/numbers.js');
const { jsonText } = require('../common/shown.js');
const { LineFacts } = require('./line-facts.js');
const { LISTS, DECLARES } = require('./name-lists.js');
const { namedFile } = require('./named-files.js');

/**
 * @typedef {[file: number, line: number, column: number]} Place
 * @typedef {import('./log/facts.js').Fact} Fact
 * @typedef {Partial<Omit<Fact, 'kind'|'number'|'ready'>> & {place?: Place, way?: Place, ready?: Place}} Facts what is known of a number
 * @typedef {{[number: string]: Facts}} List by the number
 * @typedef {{made?: string, name?: string, scope?: string, text?: string, place?: Place, module?: string, field?: number, windowOf?: number}} ObjectFacts
 * @typedef {{own?: Place, way?: Place}} PlacesOfStack
 * @typedef {import('./named-files.js').NamedFile} NamedFile
 * @typedef {import('./spelling.js').SpelledEntry} SpelledEntry
 *
 * @typedef {object} Texts the texts that were instrumented, as far as names need them (texts/sources.js)
 * @property {{address: string, text: string, library?: string}[]} files `library` is the name of a library that is a part of a file
 * @property {unknown[]} sites
 * @property {{addressOf: (number: number) => string}} modules
 * @property {(site: number) => Place} placeOfSite
 * @property {(address: string, line: number, column: number) => Place|null} placeInCopy
 * @property {(place: Place) => string} functionAt
 * @property {(site: number) => {scope?: string, text?: string}} aboutSite
 * @property {(address: string, tag: string, facts: {id?: string, source?: string}, left: Map<string, any[]>) => Place|null} nextTag `left` has the tags
 *   that no element has taken, and only this function reads it
 */

/**
 * A table whose keys may come from the page: it has none by itself.
 * @template T
 * @returns {{[key: string]: T}}
 */
const table = () => Object.create(null);

/** Made by recording/files.js, once a log is written as a trace. */
class Names {
  /** @param {Texts} sources @param {Fact[]} named what the page reported @param {RegExp|null} libraries the names of their files */
  constructor(sources, named, libraries = null) {
    this.sources = sources;
    this.libraries = libraries;
    /** @type {{[line: string]: Place}} */
    this.places = table();
    /**
     * Where a library requested something in the place of the page's own code, by the line of the note.
     * @type {{[line: string]: Place}}
     */
    this.ways = table();
    /**
     * The page's own call that led to an access in a library, by the line of the access.
     * @type {{[line: string]: Place}}
     */
    this.callers = table();
    /** @type {Map<string, string[]>} */
    this.stacks = new Map();
    /** @type {Map<string|undefined, PlacesOfStack>} */
    this.ofStacks = new Map();
    /**
     * The name of the function around a place, by file, line and column.
     * @type {{[place: string]: string}}
     */
    this.functions = table();
    /** @type {{[number: string]: ObjectFacts}} */
    this.objects = table();
    /** @type {Map<string, any[]>} as `nextTag` keeps it */
    this.tagsLeft = new Map();
    /** @type {{[list: string]: List}} */
    this.lists = table();
    for (const list of [...LISTS.values(), 'messages']) this.lists[list] = table();
    /**
     * What the page said of objects.
     * @type {Map<number, Facts>}
     */
    this.told = new Map();
    this.lines = new LineFacts();
    named.forEach((one) => this.take(one));
  }

  /**
   * Takes a fact of the log.
   * @param {Fact} fact
   */
  take({ kind, number, ready, ...facts }) {
    const list = LISTS.get(kind);
    if (kind === 'object') this.told.set(number, facts);
    else if (kind === 'written') this.lines.written.set(String(number), facts.value || '');
    else if (kind === 'stack') this.stacks.set(String(number), (facts.places || '').split('\n'));
    else if (list) Object.assign(this.entry(list, String(number)), facts, this.readyAt(ready));
  }

  /**
   * Where the page passed jQuery the callback of one of its timeouts.
   * @param {string|undefined} ready the place, as the log has it
   */
  readyAt(ready) {
    const at = this.resolve(ready);
    return at ? { ready: at } : {};
  }

  /**
   * What is known of a number, to be added to.
   * @param {string} list
   * @param {string} number
   */
  entry(list, number) {
    this.lists[list][number] = this.lists[list][number] || {};
    return this.lists[list][number];
  }

  /** @param {string} number */
  addressOfDocument(number) {
    return (this.lists.documents[number]?.address || '').replace(/#.*$/, '');
  }

  // ---- places

  /**
   * The place in the source for a place of the log, or null.
   * @param {string|undefined} place as the log has it
   * @returns {Place|null}
   */
  resolve(place) {
    if (place === undefined) return null;
    if (/^\d+$/.test(place)) return Number(place) < this.sources.sites.length ? this.sources.placeOfSite(Number(place)) : null;
    const found = /^(.*):(\d+):(\d+)$/s.exec(place);
    const at = found && this.sources.placeInCopy(found[1], Number(found[2]), Number(found[3]));
    return at && at.every(Number.isInteger) ? at : null;
  }

  /**
   * Of a stack the first place in the page's own code, and, if a library is called before it, the innermost place. Minified files are no
   * library, but say little to a reader: another place is taken before one in them.
   * @param {string|undefined} stack
   * @returns {PlacesOfStack}
   */
  placesOfStack(stack) {
    const known = this.ofStacks.get(stack);
    if (known) return known;
    const places = (stack === undefined ? [] : this.stacks.get(stack) || []).flatMap((one) => {
      const place = this.resolve(one);
      return place ? [place] : [];
    });
    const own = [...places].sort((a, b) => this.foreignness(a) - this.foreignness(b))[0];
    const found = own && this.foreignness(own) < this.foreignness(places[0]) ? { own, way: places[0] } : {};
    this.ofStacks.set(stack, found);
    return found;
  }

  /**
   * How little a place's file says about the page.
   * @param {[file: number, ...rest: unknown[]]} place
   */
  foreignness([file]) {
    const { address, library } = this.sources.files[file];
    return foreignness(library || address, this.libraries);
  }

  /**
   * Takes note of the places of all lines. Called by recording/files.js.
   * @param {SpelledEntry[]} records they begin with line 2
   * @param {SpelledEntry[]} all also those that the limits leave out: each element of the parser has a tag of its own
   */
  addRecords(records, all = records) {
    all.forEach((record) => this.addElementPlace(record));
    records.forEach((record, k) => {
      const { text, place, stack } = record;
      const words = text.split(' ');
      this.lines.take(k + 2, record);
      if (words[1] === 'var') this.addObject(Number(words[2]));
      const isAccess = text[1] === ' ';
      if (isAccess && stack) this.addCaller(k + 2, stack);
      const { own, way } = this.placesOfStack(isAccess ? undefined : stack);
      const known = own || this.resolve(place) || this.placeOfBegin(words);
      const at = known || (words[0] === 'parse' && this.lists.elements[words[2]]?.place);
      if (at) this.addPlace(k + 2, words, at, way);
    });
  }

  /**
   * The place of a line, and of the number that it declares, if it does.
   * @param {number} line
   * @param {string[]} words
   * @param {Place} place
   * @param {Place|undefined} way
   */
  addPlace(line, [word, number], place, way) {
    this.places[line] = place;
    this.addFunction(place);
    if (way) this.ways[line] = way;
    const list = DECLARES.get(word);
    if (list) Object.assign(this.entry(list, number), { place }, way && { way });
  }

  /**
   * The first place of the stack of an access is that of the page's own call.
   * @param {number} line @param {string} stack
   */
  addCaller(line, stack) {
    const [first] = this.stacks.get(stack) || [];
    const place = this.resolve(first);
    if (place) this.callers[line] = place;
  }

  /** Looks up the name of the function at a place, once. */
  addFunction(/** @type {Place} */ place) {
    const key = place.join(':');
    if (this.functions[key] === undefined) this.functions[key] = this.sources.functionAt(place);
  }

  /** The place of the code that an action runs. */
  placeOfBegin(/** @type {string[]} */ words) {
    switch (words[0]) {
      case 'timer': return this.lists.timeouts[words[1]]?.place;
      case 'tick': case 'anim': return this.lists.intervals[words[1]]?.place;
      case 'message': return this.lists.messages[words[1]]?.place;
      case 'run': return this.lists.handlers[words[3]]?.place;
      default: return null;
    }
  }

  /**
   * The parser has made an element: no code has its place, so its tag is searched in the page, after the tag before it.
   * @param {SpelledEntry} record
   */
  addElementPlace({ text, place, stack }) {
    if (!text.startsWith('parse ') || this.placesOfStack(stack).own || this.resolve(place)) return;
    const [, document, element] = text.split(' ');
    const facts = this.lists.elements[element];
    if (facts && facts.tag) facts.place = this.sources.nextTag(this.addressOfDocument(document), facts.tag, facts, this.tagsLeft) || undefined;
  }

  // ---- objects

  /**
   * Takes note of what the number of an object in a location is: a window, a form field or a module.
   * @param {number} number
   */
  addObject(number) {
    if (number >= FIRST_OBJECT) this.addMade(number);
    else if (number >= FIRST_MODULE) this.objects[number] = { module: this.sources.modules.addressOf(number) };
    else if (number >= FIRST_FIELD) this.objects[number] = { field: number - FIRST_FIELD };
    else this.objects[number] = { windowOf: number };
  }

  /**
   * An object or a scope: what made it, and the place and the text at which it was first met.
   * @param {number} number
   */
  addMade(number) {
    if (this.objects[number]) return;
    const { site = -1, made, name } = this.told.get(number) || {};
    const place = site >= 0 && site < this.sources.sites.length ? this.sources.placeOfSite(site) : null;
    if (place) this.addFunction(place);
    this.objects[number] = { ...(made === undefined ? {} : { made }), ...(name === undefined ? {} : { name }), ...(place ? { place, ...this.sources.aboutSite(site) } : {}) };
  }

  // ---- what is written

  /**
   * The files, each with its text, so that a reader needs nothing else.
   * @returns {NamedFile[]}
   */
  files() {
    /** @type {Map<number, Set<number>>} */
    const used = new Map();
    /** @param {Place} place */
    const note = ([file, line]) => used.set(file, (used.get(file) || new Set()).add(line));
    [...Object.values(this.places), ...Object.values(this.ways), ...Object.values(this.callers), ...Object.values(this.objects).flatMap(({ place }) => (place ? [place] : []))].forEach(note);
    return this.sources.files.map((file, k) => namedFile(file, used.get(k), used.has(k) && this.foreignness([k]) > 0));
  }

  /**
   * The text of OUT.names.json. Called by recording/files.js and replay/runs.js.
   * @param {{[member: string]: unknown}} facts of the recording
   */
  toJson(facts) {
    return `${jsonText({ format: 1, ...facts, ...this.facts(this.files()) }, 1, redactedValue)}\n`;
  }

  /**
   * What is in the file, by default with all lines of the files.
   * @param {NamedFile[]} files
   */
  facts(files = this.sources.files.map(({ address, text }) => ({ address: fileAddress(address), text }))) {
    const functions = Object.fromEntries(Object.entries(this.functions).filter(([, name]) => name));
    return { files, ...this.lists, objects: this.objects, functions, ...this.lines.lists(), ways: this.ways, callers: this.callers, places: this.places };
  }
}

module.exports = { Names };
