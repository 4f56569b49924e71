// The calls on the stack, and the place of the code that caused a line. It is taken from an `Error` (`stack`, `prepareStackTrace`), so many levels deep:
// `STACK_DEPTH`.

import { each, keep } from '../core/lists.js';
import { settings } from '../core/settings.js';
import { fits, found, sliceOf, withoutLastBlanks } from '../core/strings.js';
import { Error, Map, Object, Reflect, apply, getOwnPropertyDescriptor, getPrototypeOf, isArray } from '../core/taken.js';

/** Calls of a stack that are read: enough for the way through a library, and not too slow. */
const STACK_DEPTH = 16;
const LIMIT = 'stackTraceLimit';
const PREPARE = 'prepareStackTrace';
/** There can be many calls from the page's own code through a library to what it requests. */
const LONGEST_WAY = 32;
/** More than `foreignness` of any file. */
const LEAST_TELLING = 3;
const MOST_FILES = 1000;
const NO_FILE = -1;
const PAGE_ADDRESS = /^(?:https?|file|about|data|blob):/;
const PLACE_IN_FILE = /:\d+:\d+$/;
/**
 * Gives the calls of a stack in place of its text, which would cost many times as much.
 * @template T
 * @param {Error} error
 * @param {T[]} calls
 */
const callsOfStack = (error, calls) => calls;

/**
 * The calls on the stack, the innermost first. A page that freezes its errors gives none.
 * @returns {import('../types').CallSite[]}
 */
function takeStack(depth = STACK_DEPTH) {
  const limit = getOwnPropertyDescriptor(Error, LIMIT);
  const prepare = getOwnPropertyDescriptor(Error, PREPARE);
  if ((limit && !limit.configurable) || (prepare && !prepare.configurable) || !Object.isExtensible(Error)) return [];
  Object.defineProperty(Error, LIMIT, valueOnly(depth));
  Object.defineProperty(Error, PREPARE, valueOnly(callsOfStack));
  const stack = /** @type {unknown} */ (new Error().stack);
  putBack(LIMIT, limit);
  putBack(PREPARE, prepare);
  return isArray(stack) ? stack : [];
}

/**
 * A property that is set so calls no setter of the page.
 * @param {unknown} value
 */
const valueOnly = (value) => ({ __proto__: null, value, writable: true, enumerable: true, configurable: true });

/**
 * Gives a property of `Error` back to the page as it was.
 * @param {string} name
 * @param {PropertyDescriptor|undefined} descriptor as the page had it
 */
function putBack(name, descriptor) {
  if (descriptor) Object.defineProperty(Error, name, Object.setPrototypeOf(descriptor, null));
  else Reflect.deleteProperty(Error, name);
}

/** What the browser's calls can do, which the page may replace once it has got hold of one. */
const { getScriptNameOrSourceURL, getLineNumber, getColumnNumber } = /** @type {import('../types').CallSite} */ (getPrototypeOf(takeStack()[0]));

/** @param {import('../types').CallSite} call @returns {string} */
const addressOf = (call) => apply(getScriptNameOrSourceURL, call, []) || '';
/** @param {import('../types').CallSite} call */
const isOfPage = (call) => fits(PAGE_ADDRESS, addressOf(call));
/**
 * Called by page/recording/spots.js.
 * @param {import('../types').CallSite} call
 */
const placeOfCall = (call) => `${addressOf(call)}:${apply(getLineNumber, call, [])}:${apply(getColumnNumber, call, [])}`;

/** How foreign files are (`foreignness`), by their addresses; of what is no file of the page NO_FILE. @type {Map<string, number>} */
const known = new Map();

/**
 * How foreign the file of a call is (0: the page's own, 2: a library; common/library.js), remembered by address: a stack is read at each place.
 * @param {import('../types').CallSite} call
 */
function foreignnessOf(call) {
  const address = addressOf(call);
  let foreignness = known.get(address);
  if (foreignness === undefined) {
    foreignness = fits(PAGE_ADDRESS, address) ? settings.foreignness(address, settings.libraries, found) : NO_FILE;
    if (known.size < MOST_FILES) known.set(address, foreignness);
  }
  return foreignness;
}

/**
 * The page's own call that led to the running code, if that is in a library: '' if none is on the stack, null if the code is the page's own. Called by
 * page/objects/callers.js.
 * @returns {string|null}
 */
function callOfLibrary() {
  const calls = takeStack(LONGEST_WAY);
  let isInside = false;
  for (let k = 0; k < calls.length; k++) {
    const foreignness = foreignnessOf(calls[k]);
    if (foreignness === 0) return isInside ? placeOfCall(calls[k]) : null;
    if (foreignness !== NO_FILE) isInside = true;
  }
  return '';
}

/**
 * The first place among calls that helps a reader most: of the page's own code, otherwise of a library's. Called by page/recording/recording.js and
 * page/recording/steering.js.
 * @param {import('../types').CallSite[]} calls
 * @returns {string} `address:line:column` in the browser's copy, or ''
 */
function ownPlace(calls) {
  let best = calls[0];
  let least = LEAST_TELLING;
  for (let k = 0; k < calls.length && least > 0; k++) {
    const foreignness = foreignnessOf(calls[k]);
    if (foreignness < least) {
      least = foreignness;
      best = calls[k];
    }
  }
  return best ? placeOfCall(best) : '';
}

function placeOnStack() {
  return ownPlace(keep(takeStack(), isOfPage));
}

/** The address of the code that runs, or ''. Called by page/scripts/modules.js and page/scripts/scripts.js. */
function fileOnStack() {
  const place = placeOnStack();
  const end = found(PLACE_IN_FILE, place);
  return end ? sliceOf(place, 0, end.index) : place;
}

/**
 * The page's calls that led to what it requests now, the innermost first. Called by page/recording/recording.js, page/recording/spots.js and
 * page/recording/steering.js.
 */
const callsOfPage = () => keep(takeStack(LONGEST_WAY), isOfPage);

/**
 * The places of several calls, a line each; '' if there is only one. Called by log.js and page/recording/spots.js.
 * @param {import('../types').CallSite[]} calls
 */
function wayOf(calls) {
  if (calls.length < 2) return '';
  let text = '';
  each(calls, (call) => { text += `${placeOfCall(call)}\n`; });
  return withoutLastBlanks(text);
}

export { callOfLibrary, fileOnStack, ownPlace, placeOfCall, placeOnStack, callsOfPage, wayOf };
