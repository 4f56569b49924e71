'use strict';
// Source maps: which place of the files that a bundle was made of a place of the bundle stands for. It decodes their `mappings` (Base64 VLQ), and index maps
// with `sections`.

const { addressOfMap, textInAddress } = require('./map-address.js');

/**
 * @typedef {{sources: (string|null)[], sourceRoot?: unknown, sourcesContent?: (string|null)[]|null, names?: (string|number|null)[]|null, mappings: string}} MapJson
 * @typedef {{offset: {line: number, column: number}, map: MapJson}} SectionJson
 * @typedef {{source: number, line: number, column: number, name: string|undefined}} Original
 * @typedef {[column: number, source: number, line: number, sourceColumn: number, name: number]} Segment
 * @typedef {SourceMap|IndexMap} AnyMap
 */

/** The digits of a segment: Base64, the value of each is its index. */
const DIGITS = 'ABCDEFGHIJKLMNOPQRSTUVWXYZabcdefghijklmnopqrstuvwxyz0123456789+/';
const VALUE_OF = new Map(Array.from(DIGITS, (digit, k) => [digit, k]));
/** A larger map is left out: with its segments it takes many times its own size. */
const LARGEST_MAP = 64 * 1024 * 1024;
const LARGEST_MAPPINGS = 16 * 1024 * 1024;
const LONGEST_REASON = 100;

/**
 * The numbers of one segment, each of digits of five bits with the sign in the lowest one.
 * @param {string} segment
 */
function numbersOf(segment) {
  const numbers = [];
  let value = 0;
  let shift = 0;
  for (const digit of segment) {
    const bits = VALUE_OF.get(digit);
    if (bits === undefined) throw new Error('its mappings have a digit that is none');
    value += (bits & 31) << shift;
    shift += 5;
    if (bits & 32) continue;
    numbers.push(value & 1 ? -(value >> 1) : value >> 1);
    value = 0;
    shift = 0;
  }
  return numbers;
}

/** @param {unknown} list */
const isListOfTexts = (list) => Array.isArray(list) && list.every((one) => typeof one === 'string' || one === null);
/**
 * Some tools write names that are numbers.
 * @param {unknown} list
 */
const isListOfNames = (list) => Array.isArray(list) && list.every((one) => typeof one === 'string' || typeof one === 'number' || one === null);

/**
 * Whether a map has what it must have.
 * @param {unknown} given
 * @returns {given is MapJson}
 */
function isMap(given) {
  if (given === null || typeof given !== 'object') return false;
  const { sources, mappings, names, sourcesContent } = /** @type {{[member: string]: unknown}} */ (given);
  return isListOfTexts(sources) && typeof mappings === 'string' && (names === undefined || names === null || isListOfNames(names))
    && (sourcesContent === undefined || sourcesContent === null || isListOfTexts(sourcesContent));
}

/** Made by `parseMap`. */
class SourceMap {
  /**
   * @param {MapJson} map
   * @param {string} address of the bundle
   */
  constructor(map, address) {
    const root = typeof map.sourceRoot === 'string' && map.sourceRoot ? `${map.sourceRoot.replace(/\/$/, '')}/` : '';
    this.sources = map.sources.map((name) => `${root}${name ?? '?'}`);
    /** @type {(string|null|undefined)[]} */
    this.texts = map.sourcesContent || [];
    this.names = (map.names || []).map((name) => (name === null ? '' : String(name)));
    this.address = address;
    this.lines = this.decode(map.mappings);
  }

  /**
   * For each line of the bundle the segments, all numbers from 0.
   * @param {string} mappings
   * @returns {Segment[][]}
   */
  decode(mappings) {
    const state = [0, 0, 0, 0];
    return mappings.split(';').map((line) => {
      let column = 0;
      let isSorted = true;
      const segments = line.split(',').filter(Boolean).map((segment) => {
        const [further = 0, ...numbers] = numbersOf(segment);
        isSorted = isSorted && further >= 0;
        column += further;
        numbers.forEach((number, k) => { state[k] += number; });
        const [source, originalLine, sourceColumn] = numbers.length >= 3 ? state : [-1, 0, 0];
        return /** @type {Segment} */ ([column, source, originalLine, sourceColumn, numbers.length === 4 ? state[3] : -1]);
      });
      return isSorted ? segments : segments.sort((a, b) => a[0] - b[0]);
    });
  }

  /**
   * The place in the sources for a place in the bundle, or null.
   * @param {number} line from 1
   * @param {number} column from 1
   * @returns {Original|null}
   */
  original(line, column) {
    const segments = this.lines[line - 1] || [];
    let low = 0;
    let high = segments.length - 1;
    while (low < high) {
      const middle = (low + high + 1) >> 1;
      if (segments[middle][0] <= column - 1) low = middle;
      else high = middle - 1;
    }
    const found = segments[low];
    if (!found || found[0] > column - 1 || !(found[1] in this.sources) || found[2] < 0 || found[3] < 0) return null;
    return { source: found[1], line: found[2] + 1, column: found[3] + 1, name: found[0] === column - 1 ? this.names[found[4]] || undefined : undefined };
  }
}

/** A map of several, each from a place of the bundle on. */
class IndexMap {
  /**
   * @param {SectionJson[]} sections
   * @param {string} address of the bundle
   */
  constructor(sections, address) {
    /** @type {string[]} */
    this.sources = [];
    /** @type {(string|null|undefined)[]} */
    this.texts = [];
    /** @type {string[]} */
    this.names = [];
    this.address = address;
    this.sections = sections.map(({ offset, map }) => this.add(offset, new SourceMap(map, address)));
  }

  /**
   * Adds the map of a section of the bundle.
   * @param {{line: number, column: number}} offset
   * @param {SourceMap} map
   */
  add({ line, column }, map) {
    const section = { line, column, map, base: this.sources.length };
    map.sources.forEach((name, k) => { this.texts[this.sources.push(name) - 1] = map.texts[k]; });
    for (const name of map.names) this.names.push(name);
    return section;
  }

  /**
   * As that of a SourceMap.
   * @param {number} line
   * @param {number} column
   * @returns {Original|null}
   */
  original(line, column) {
    const found = this.sections.filter((one) => one.line < line - 1 || (one.line === line - 1 && one.column <= column - 1)).pop();
    if (!found) return null;
    const original = found.map.original(line - found.line, found.line === line - 1 ? column - found.column : column);
    return original && { ...original, source: original.source + found.base };
  }
}

/**
 * Whether a value is a section of an indexed map.
 * @param {unknown} given
 * @returns {given is SectionJson}
 */
function isSection(given) {
  const { offset, map } = /** @type {{offset?: {line?: unknown, column?: unknown}, map?: unknown}} */ (given ?? {});
  return Number.isInteger(offset?.line) && Number.isInteger(offset?.column) && isMap(map);
}

/**
 * The map that a text stands for. Throws if it stands for none.
 * @param {string} text
 * @param {string} address
 * @returns {AnyMap}
 */
function parseMap(text, address) {
  if (text.length > LARGEST_MAP) throw new Error(`it has more than ${LARGEST_MAP} characters`);
  const map = /** @type {{version?: unknown, sections?: unknown}|null} */ (JSON.parse(text.replace(/^\)\]\}'.*\n/, '')));
  if (map?.version !== 3) throw new Error('it is of no known version');
  const { sections } = map;
  if (sections === undefined) {
    if (!isMap(map)) throw new Error('a part of it is missing or is no such thing');
    checkLength([map]);
    return new SourceMap(map, address);
  }
  if (!Array.isArray(sections) || !sections.every(isSection)) throw new Error('a part of it is missing or is no such thing');
  checkLength(sections.map((one) => one.map));
  return new IndexMap(sections, address);
}

/** @param {MapJson[]} maps */
function checkLength(maps) {
  if (maps.some(({ mappings }) => mappings.length > LARGEST_MAPPINGS)) throw new Error(`its mappings have more than ${LARGEST_MAPPINGS} characters`);
}

/**
 * The source map of a script, or null if it names none, or none can be read: then the places in the bundle are used. Called by texts/sources.js.
 * @param {string} text
 * @param {string} address
 * @param {(address: string) => Promise<string|null>} read
 * @param {(why: string) => void} miss called for a map that is named and left out
 * @param {string} named the address that the response of the script named
 * @returns {Promise<AnyMap|null>}
 */
async function readMap(text, address, read, miss = () => {}, named = '') {
  const place = addressOfMap(text, address, named);
  if (!place) return null;
  try {
    const found = textInAddress(place) ?? await read(place);
    if (found === null || found === undefined) miss('source maps that are not among the page\'s files, left out');
    return found ? parseMap(found, address) : null;
  } catch (fault) {
    const reason = fault instanceof SyntaxError || !(fault instanceof Error) ? 'no JSON' : fault.message.slice(0, LONGEST_REASON);
    miss(`source maps that can't be read, left out (${reason})`);
    return null;
  }
}

module.exports = { SourceMap, IndexMap, readMap };
