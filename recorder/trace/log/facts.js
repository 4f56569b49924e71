'use strict';
// The facts of the page's log, in JSON: which kinds there are, their members and what each may be. Nothing else is taken.

const { withoutCredentials } = require('../../common/address.js');
const { withoutCommands } = require('../../common/shown.js');

/**
 * What is known of a number: its kind says which members it has.
 * @typedef {{kind: string, number: number, tag?: string, id?: string, field?: string, source?: string, loads?: string, document?: number, standsFor?: number,
 *   message?: number, why?: string, address?: string, frame?: number, type?: string, target?: number, function?: string, isEmpty?: boolean, method?: string,
 *   url?: string, of?: number, act?: number, site?: number, made?: string, name?: string, value?: string, places?: string, ready?: string, queue?: string, ends?: number}} Fact
 * @typedef {(value: unknown) => unknown} Reader gives the value as it is taken, or undefined if it is none
 */

/** Limits of what a page can write: other facts are not taken. The number is the largest of the format. */
const MOST_NUMBER = 2 ** 32 - 1;
const LONGEST_TEXT = 300;
const LONGEST_ADDRESS = 4000;
/** The places of a stack, a line each. */
const LONGEST_STACK = 100000;
const PLACES = /^[^\n]+:\d{1,9}:\d{1,9}(?:\n[^\n]+:\d{1,9}:\d{1,9})*$/;
/** What an access found (page/log/values.js). */
const VALUE = /^[\w?+<=-]{1,100}$/;
/** An element that stands for another one may stand for a third: so often at most. */
const LONGEST_CHAIN = 20;

/**
 * @param {unknown} value
 * @param {number} longest
 */
const textOf = (value, longest) => (typeof value === 'string' ? value.slice(0, longest) : undefined);

/** @type {Reader} */
const number = (value) => (Number.isInteger(value) && Number(value) >= 0 && Number(value) <= MOST_NUMBER ? value : undefined);
/**
 * A text for a reader. A name of what every object has is none: tables of such texts would find it.
 * @type {Reader}
 */
function text(value) {
  const given = textOf(value, LONGEST_TEXT);
  return given === undefined ? undefined : withoutCommands(given);
}
/** @type {Reader} */
const why = (value) => (typeof value === 'string' && value in Object.prototype ? undefined : text(value));
/**
 * A text that is compared with what the page's file has.
 * @type {Reader}
 */
const raw = (value) => textOf(value, LONGEST_TEXT);
/**
 * An address of a fact, without password and control characters.
 * @type {Reader}
 */
function address(value) {
  const given = textOf(value, LONGEST_ADDRESS);
  return given === undefined ? undefined : withoutCommands(withoutCredentials(given));
}
/** @type {Reader} */
const flag = (value) => (typeof value === 'boolean' ? value : undefined);
/** @type {Reader} */
const digest = (value) => (typeof value === 'string' && VALUE.test(value) ? value : undefined);
/** @type {Reader} */
const places = (value) => (typeof value === 'string' && value.length <= LONGEST_STACK && PLACES.test(value) ? value : undefined);
/** @type {Reader} */
const place = (value) => (typeof value === 'string' && !value.includes('\n') ? places(value) : undefined);
/**
 * The number of a place in marked code, or -1.
 * @type {Reader}
 */
const site = (value) => (value === -1 ? value : number(value));

/**
 * By the kind: the members besides `number`.
 * @type {Map<string, Map<string, Reader>>}
 */
const KINDS = new Map(Object.entries({
  element: { tag: text, id: raw, field: text, source: raw, loads: address, document: number, standsFor: number, message: number, why },
  document: { address, frame: number },
  handler: { type: text, target: number, function: text, isEmpty: flag, queue: text, ends: number },
  timeout: { function: text, ready: place },
  interval: { why, function: text },
  request: { method: text, address, url: address, of: number },
  dispatch: { type: text, act: number },
  object: { site, made: text, name: text },
  written: { value: digest },
  stack: { places },
  held: {},
}).map(([kind, members]) => [kind, new Map(Object.entries(members))]));

/** A part of `Intake`. */
class Facts {
  /** @param {() => number} countSites how many places of marked code there are */
  constructor(countSites) {
    this.countSites = countSites;
    /** @type {Map<number, number>} */
    this.standsFor = new Map();
  }

  /**
   * Takes a line of facts. Returns whether it fits. Called by trace/intake.js.
   * @param {string} json
   * @returns {Fact|null} null if it is none
   */
  read(json) {
    let given;
    try {
      given = JSON.parse(json);
    } catch {
      return null; // no JSON
    }
    const readers = given !== null && typeof given === 'object' && typeof given.kind === 'string' ? KINDS.get(given.kind) : undefined;
    if (!readers || number(given.number) === undefined) return null;
    /** @type {{[name: string]: unknown}} */
    const fact = { kind: given.kind, number: given.number };
    for (const [member, value] of Object.entries(given)) {
      if (member === 'kind' || member === 'number') continue;
      const taken = readers.get(member)?.(value);
      if (taken === undefined) return null;
      fact[member] = taken;
    }
    return this.isTaken(/** @type {Fact} */ (fact)) ? /** @type {Fact} */ (fact) : null;
  }

  /**
   * Whether a fact is about something that the log has.
   * @param {Fact} fact
   */
  isTaken({ kind, number: own, standsFor, site: at, places: way }) {
    if (kind === 'stack' && way === undefined) return false;
    if (kind === 'written') return true;
    if (at !== undefined && at >= this.countSites()) return false;
    return standsFor === undefined || this.mayStandFor(own, standsFor);
  }

  /**
   * Whether an element may stand for another one: no way leads from that one back, or is too long.
   * @param {number} own
   * @param {number} other
   */
  mayStandFor(own, other) {
    let next = /** @type {number|undefined} */ (other);
    for (let k = 0; next !== undefined; k++) {
      if (next === own || k > LONGEST_CHAIN) return false;
      next = this.standsFor.get(next);
    }
    this.standsFor.set(own, other);
    return true;
  }
}

module.exports = { Facts, VALUE };
