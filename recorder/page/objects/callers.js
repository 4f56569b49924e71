// The page's own code that called a library which touches the page's tree. An access has the place of its mark; a reader wants the call that led to it.

import { Map } from '../core/taken.js';
import { callOfLibrary } from '../log/stack.js';

/** So many calls are looked for in an action, and for a site: a stack costs as much as hundreds of accesses. */
const MOST_OF_ACTION = 40;
const MOST_OF_SITE = 200;
/** So many different ones are known. */
const MOST_KNOWN = 20000;
/** Numbers of places with a call are below -1, which is no place. */
const FIRST = -2;

/** Made by objects.js, as its `callers`. */
class Callers {
  /** @param {import('../types').Recording} recording */
  constructor(recording) {
    this.recording = recording;
    /** @type {Map<number, number>} by site, how many calls are still looked for: none for one in the page's own code */
    this.left = new Map();
    /** @type {{site: number, stack: number}[]} */
    this.known = [];
    /** @type {Map<string, number>} the numbers of these, by site and place of the call */
    this.numbers = new Map();
    this.action = 0;
    this.count = 0;
  }

  /**
   * A site, or the number of a site with the page's own call that led to it. Called by trees.js.
   * @param {number} site
   */
  placeOf(site) {
    const left = this.left.get(site) ?? MOST_OF_SITE;
    if (site < 0 || left === 0 || !this.#isWanted()) return site;
    const place = callOfLibrary();
    this.left.set(site, place === null ? 0 : left - 1);
    return place ? this.#numberOf(site, place) : site;
  }

  /** Whether this action may still ask for the stack: reading it is slow, and a loop of a library calls often. */
  #isWanted() {
    const { actions } = this.recording;
    if (this.action !== actions) {
      this.action = actions;
      this.count = 0;
    }
    this.count++;
    return this.count <= MOST_OF_ACTION;
  }

  /**
   * The number, below -1, for a site with the page's own call that led to it.
   * @param {number} site
   * @param {string} place of the call
   */
  #numberOf(site, place) {
    const key = `${site} ${place}`;
    const known = this.numbers.get(key);
    if (known !== undefined) return known;
    if (this.known.length >= MOST_KNOWN) return site;
    const number = FIRST - this.known.length;
    this.known[this.known.length] = { site, stack: this.recording.log.numberOfPlace(place) };
    this.numbers.set(key, number);
    return number;
  }

  /**
   * The place of an access, for its line. Called by waiting.js.
   * @param {number} site as `placeOf` gives it
   */
  siteOf(site) {
    return site <= FIRST ? this.known[FIRST - site].site : site < 0 ? undefined : site;
  }

  /**
   * The number of the stack of an access, for its line; 0 if the page's own code makes it. Called by waiting.js.
   * @param {number} site as `placeOf` gives it
   */
  stackOf(site) {
    return site <= FIRST ? this.known[FIRST - site].stack : 0;
  }
}

export { Callers };
