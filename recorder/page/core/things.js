// Predicates of things: whether a value is an object or a function, an element, a film or a sound, a plain object; and the document of a window.

import { findItem } from './lists.js';
import { Object } from './taken.js';

/** The namespace of HTML: an element of another one (SVG) has other properties. */
const HTML_NAMESPACE = 'http://www.w3.org/1999/xhtml';

/**
 * @param {unknown} object
 * @returns {object is object}
 */
const isThing = (object) => object !== null && (typeof object === 'object' || typeof object === 'function');

/**
 * @param {unknown} target of events, or a node
 * @returns {target is Element}
 */
const isElement = (target) => isThing(target) && /** @type {Node} */ (target).nodeType === 1;

/**
 * @param {any} target any target of events
 * @returns {target is HTMLMediaElement}
 */
const isMedia = (target) => !!target && (target.localName === 'video' || target.localName === 'audio');

/**
 * Whether something is an object whose properties are values: to read them runs no code of the page. Called by page/events/messages.js,
 * page/events/navigations.js and page/tasks/callbacks.js.
 * @param {unknown} given
 * @returns {given is {[name: string]: any}} what the page passes
 */
function isPlainObject(given) {
  if (typeof given !== 'object' || given === null) return false;
  const found = Object.getOwnPropertyDescriptors(given);
  return !findItem(Object.keys(found), (name) => !('value' in found[name]));
}

/**
 * The document that a window shows, or null if that is of another origin. Called by page/events/messages.js and page/page.js.
 * @param {import('../types').PageWindow} window
 */
function documentOf(window) {
  try {
    return window.document;
  } catch { // another origin
    return null;
  }
}

export { HTML_NAMESPACE, isElement, isThing, isMedia, isPlainObject, documentOf };
