// What an access found or wrote: a short digest of the value, written beside the line. No record of the trace contains it. A hash of a text or a number, and
// the kind of an object or a function.

import { each } from '../core/lists.js';
import { codeAt, digitsOf, sliceOf } from '../core/strings.js';
import { Math, Object, String } from '../core/taken.js';

/** Of a longer text the two ends are digested, and its length. */
const LONGEST_DIGESTED = 200;
const NOTHING = '-';
/** The value is not known. */
const UNKNOWN = {};
/** There is no such property. A name that is no property of the window is nothing, or a variable that is in no object. */
const MISSING = {};

/**
 * A hash of a text (FNV-1a), of a long one by its start and its end: it only tells values apart.
 * @param {string} text
 */
function hashOf(text) {
  const digested = text.length > LONGEST_DIGESTED ? sliceOf(text, 0, LONGEST_DIGESTED / 2) + sliceOf(text, -LONGEST_DIGESTED / 2) : text;
  let value = 0x811c9dc5;
  for (let k = 0; k < digested.length; k++) value = Math.imul(value ^ codeAt(digested, k), 0x01000193) >>> 0;
  return digitsOf(value, 36);
}

/**
 * `-` for nothing, `true`, `false` and `null` as themselves, a letter for a value without a text of its own, otherwise a letter and a hash. Called by
 * page/accesses/unseen.js and page/objects/waiting.js.
 * @param {unknown} value
 */
function digestOf(value) {
  switch (typeof value) {
    case 'undefined': return NOTHING;
    case 'boolean': return String(value);
    case 'string': case 'number': case 'bigint': return `${(typeof value)[0]}${hashOf(String(value))}${String(value).length}`;
    case 'function': return 'f';
    case 'symbol': return 'y';
    default: return value === null ? 'null' : value === MISSING || value === UNKNOWN ? '?' : 'o';
  }
}

/** Objects have no digests of their own, and accesses that wait do not keep them alive (waiting.js). */
const A_THING = {};
const A_FUNCTION = () => {};
const LONGEST_KEPT = 1000;

/**
 * A value as an access that waits has it. Called by page/objects/variables.js.
 * @param {unknown} value
 */
function keepable(value) {
  switch (typeof value) {
    case 'object': return value === null || value === UNKNOWN || value === MISSING ? value : A_THING;
    case 'function': return A_FUNCTION;
    case 'string': return value.length > LONGEST_KEPT ? UNKNOWN : value;
    default: return value;
  }
}

/**
 * The name of a function, if it is a text.
 * @param {unknown} given
 */
function nameOfFunction(given) {
  const descriptor = typeof given === 'function' && Object.getOwnPropertyDescriptor(given, 'name');
  return descriptor && typeof descriptor.value === 'string' && descriptor.value ? sliceOf(descriptor.value, 0, 100) : undefined;
}

/**
 * The values of writes: marks come before a write, so what it wrote is looked up when the action, or the piece of it, is over. Made by page/recording/lines.js,
 * as its `values`.
 */
class Values {
  /** @param {import('./log').Log} log */
  constructor(log) {
    this.log = log;
    this.number = 0;
    /** @type {{number: number, look: () => unknown}[]} */
    this.open = [];
  }

  /**
   * What is beside the line of an access. Called by page/recording/lines.js.
   * @param {string} mode
   * @param {import('../types').Found} found
   */
  beside(mode, found) {
    if (typeof found !== 'function') return found;
    if (mode === 'r') return digestOf(found());
    this.number++;
    this.open[this.open.length] = { number: this.number, look: found };
    return `=${this.number}`;
  }

  /**
   * Writes the values that the writes so far have left. Called as an action or a piece of it ends. Called by page/recording/lines.js and
   * page/recording/recording.js.
   */
  write() {
    if (!this.open.length) return;
    const { open } = this;
    this.open = [];
    each(open, ({ number, look }) => this.log.name('written', number, { value: digestOf(look()) }));
  }
}

export { UNKNOWN, MISSING, digestOf, keepable, nameOfFunction, Values };
