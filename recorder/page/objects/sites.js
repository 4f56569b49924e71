// Which object each place of instrumented code (its site) has had in the running piece. The helpers ask this first: so a place in a loop over one object
// costs no more than the question.

import { Map, isArray, isView } from '../core/taken.js';
import { isThing } from '../core/things.js';
import { SINGLE_ITEMS } from './holders.js';

/** Of a place in the code that touches more objects than this in one action, further ones are not recorded in it. */
const MOST_OBJECTS_OF_SITE = 2000;
/** The bits of the items of an array that a site has had: one each, and one for all others. */
const ALL_OTHERS = 1 << SINGLE_ITEMS;
const ALL_ITEMS = 2 * ALL_OTHERS - 1;

/**
 * Called by page/helpers/properties.js.
 * @param {number} item
 */
const bitOf = (item) => 1 << (item < SINGLE_ITEMS ? item : SINGLE_ITEMS);
/**
 * The mark of a site for the place of its write, and the place for a mark: below zero if the other one is not. Called by scopes.js
 * and page/helpers/scopes.js.
 * @param {number} place
 */
const markOfStaged = (place) => -1 - place;
/**
 * What a site has met that had too many objects in a piece.
 * @param {number} piece
 */
const fullIn = (piece) => -1 - piece;

/**
 * What each site had in the running piece: `objects`, the last one, or null; `keys`, its last key; `marks`, the bits of the items, or `markOfStaged` of its
 * write. And how many objects it had in which action. Each list has an entry for each site of the page's scripts, so there are few lists. Made by
 * objects.js, as its `sites`.
 */
class Sites {
  /** @param {import('../types').Recording} recording */
  constructor(recording) {
    this.recording = recording;
    /** @type {(object|null)[]} */
    this.objects = [];
    /** @type {unknown[]} */
    this.keys = [];
    /** @type {number[]} */
    this.marks = [];
    /**
     * MOST_OBJECTS_OF_SITE times the last action that counted objects, and their count in it; or `fullIn` of the last piece in which these were too many.
     * @type {number[]}
     */
    this.met = [];
    /**
     * The last action in which a site had too many, by site: few sites have.
     * @type {Map<number, number>}
     */
    this.full = new Map();
    /**
     * The sites that have an object.
     * @type {number[]}
     */
    this.touched = [];
  }

  /** The running action might change. Nothing of the page is kept alive here. */
  forget() {
    const { touched, objects, keys, marks } = this;
    for (let k = 0; k < touched.length; k++) {
      objects[touched[k]] = null;
      keys[touched[k]] = null;
      marks[touched[k]] = 0;
    }
    touched.length = 0;
  }

  /**
   * Makes the lists long enough for a site.
   * @param {number} site
   */
  #makeRoom(site) {
    for (let k = this.objects.length; k <= site; k++) {
      this.objects[k] = null;
      this.keys[k] = null;
      this.marks[k] = 0;
      this.met[k] = 0;
    }
  }

  /**
   * Whether an access is to be looked at. Then its site has the object.
   * @param {unknown} object
   * @param {number} site
   * @returns {object is object}
   */
  isDue(object, site) {
    const { recording } = this;
    if (!isThing(object) || this.met[site] === fullIn(recording.pieces) || !recording.mayAccess()) return false;
    if (site >= this.objects.length) this.#makeRoom(site);
    if (this.#isTooMany(site)) return false;
    if (this.objects[site] === null) this.touched[this.touched.length] = site;
    this.objects[site] = object;
    this.keys[site] = null;
    this.marks[site] = 0;
    return true;
  }

  /**
   * Counts an object of a site.
   * @param {number} site
   */
  #isTooMany(site) {
    const { actions, pieces, log } = this.recording;
    const { met, full } = this;
    const first = actions * MOST_OBJECTS_OF_SITE;
    if (met[site] >= 0 || full.get(site) !== actions) {
      met[site] = met[site] > first ? met[site] + 1 : first + 1;
      if (met[site] < first + MOST_OBJECTS_OF_SITE) return false;
      log.miss(`further objects of places in the code that touch more than ${MOST_OBJECTS_OF_SITE} in one action; such places`);
      full.set(site, actions);
    }
    met[site] = fullIn(pieces);
    return true;
  }

  /**
   * The site has had a key of its object. Called by page/helpers/properties.js.
   * @param {object} object
   * @param {import('../types').VariableName} key
   * @param {number} site
   */
  noteKey(object, key, site) {
    if (typeof key === 'number' && isArray(object)) this.marks[site] |= bitOf(key);
    else if (typeof key === 'number' && isView(object)) this.marks[site] = ALL_ITEMS;
    else this.keys[site] = key;
  }
}

export { bitOf, markOfStaged, Sites };
