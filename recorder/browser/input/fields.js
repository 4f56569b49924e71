'use strict';
// Functions that run in the page: what a user finds at a field, and how far it scrolls. Each is sent as its text, with the functions of selectors.js. A text
// field gets the focus and its text is selected, an option of a `<select>` (a drop-down list) is found and chosen.
/* eslint-env browser */

const { findAll, isShown } = require('./selectors.js');

/**
 * @typedef {import('./selectors.js').Where} Where
 * @typedef {import('./targets.js').Point} Point
 * @typedef {HTMLInputElement|HTMLTextAreaElement} Field
 */

/**
 * Whether what is typed into an element is a secret. Called by browser/user-steps.js.
 * @param {Where} where
 */
function isSecretField(where) {
  const [element] = findAll(where);
  return !!element && element.matches('input[type=password],[autocomplete$=password],[autocomplete=one-time-code]');
}

/**
 * Why an act has no target. `seconds` is for how long it was searched. Called by browser/user-steps.js, driven/flow-recorder.js and recording/acts.js.
 * @param {Where} where
 * @param {number} seconds
 */
function whyNoTarget(where, seconds) {
  try {
    return findAll(where).length ? `the element has no size, so it can't be clicked` : `no element matches the selector, after ${seconds} s`;
  } catch {
    return 'the selector is not valid';
  }
}

/**
 * Gives the focus to an element. Returns whether it has it. Called by browser/user-steps.js.
 * @param {Where} where
 */
function focusAt(where) {
  const [element] = /** @type {HTMLElement[]} */ (findAll(where));
  if (!element) return null;
  element.focus();
  return element.matches(':focus');
}

/**
 * How an option of a list is chosen: in an open list it is clicked; in another one it is so many keys from the first one. Null if there is no such list, and
 * no numbers if it has no such option. Called by browser/user-steps.js.
 * @param {Where} where
 * @param {string} wanted its value or its text
 * @returns {{keys: number|null, point: Point|null}|null}
 */
function findOption(where, wanted) {
  const select = /** @type {HTMLSelectElement} */ (findAll(where)[0]);
  if (!select || select.localName !== 'select') return null;
  const isOff = (/** @type {HTMLOptionElement} */ one) => one.disabled || (one.parentElement?.localName === 'optgroup' && /** @type {HTMLOptGroupElement} */ (one.parentElement).disabled);
  const options = [...select.options].filter((one) => !isOff(one) && getComputedStyle(one).display !== 'none');
  const text = wanted.replace(/\s+/g, ' ').trim();
  const option = options.find(({ value }) => value === wanted) || options.find((one) => one.label.replace(/\s+/g, ' ').trim() === text);
  if (!option) return { keys: null, point: null };
  if (!select.multiple && select.size < 2) return { keys: options.indexOf(option), point: null };
  option.scrollIntoView({ block: 'nearest' });
  const { left, top, width, height } = option.getBoundingClientRect();
  return { keys: null, point: { x: left + width / 2, y: top + height / 2 } };
}

/**
 * Prepares a field for another value: what is in it is selected, so that what is typed takes its place. A field that takes no letters gets the value at once.
 * Called by browser/user-steps.js.
 * @param {Where} where
 * @param {string} value
 * @returns {'list'|'letters'|'done'|'none'}
 */
function prepareField(where, value) {
  const field = /** @type {Field & HTMLElement} */ (findAll(where)[0]);
  if (!field) return 'none';
  if (field.localName === 'select') return 'list';
  if (field.isContentEditable) {
    getSelection()?.selectAllChildren(field);
    return 'letters';
  }
  if (field.localName === 'textarea' || field.matches('input:is(:not([type]),[type=text],[type=search],[type=password],[type=email],[type=tel],[type=url],[type=number])')) {
    if (field.value) field.select();
    return 'letters';
  }
  if (field.localName !== 'input') return 'none';
  field.value = value;
  for (const type of ['input', 'change']) field.dispatchEvent(new Event(type, { bubbles: true, composed: type === 'input' }));
  return 'done';
}

/**
 * How far a user scrolls, and where the pointer is meanwhile: an element to a position in it, or the window. Called by browser/user-steps.js.
 * @param {Where|null} where
 * @param {number} x
 * @param {number} y
 */
function scrollBy(where, x, y) {
  const element = where ? findAll(where)[0] : document.scrollingElement || document.documentElement;
  if (!element) return null;
  const most = { x: element.scrollWidth - element.clientWidth, y: element.scrollHeight - element.clientHeight };
  if (where) element.scrollIntoView({ block: 'nearest' });
  const box = where ? element.getBoundingClientRect() : new DOMRect(0, 0, innerWidth, innerHeight);
  const by = { x: Math.min(x, Math.max(most.x, 0)) - element.scrollLeft, y: Math.min(y, Math.max(most.y, 0)) - element.scrollTop };
  return { by, point: { x: box.left + Math.min(box.width / 2, innerWidth / 2), y: box.top + Math.min(box.height / 2, innerHeight / 2) } };
}

/**
 * Whether so many elements are there, with these attributes and properties. Called by browser/user-steps.js.
 * @param {Where} where
 * @param {{operator?: '>='|'=='|'<=', count?: number, visible?: boolean, attributes?: {[name: string]: string}, properties?: object}} wanted
 */
function areThere(where, { operator = '>=', count = 1, visible, attributes = {}, properties = {} }) {
  /** @type {(given: any, part: any) => boolean} of any values */
  const has = (given, part) => (part && typeof part === 'object'
    ? !!given && Object.keys(part).every((name) => has(given[name], part[name])) : given === part);
  const found = findAll(where).filter((one) => Object.entries(attributes).every(([name, value]) => one.getAttribute(name) === value) && has(one, properties)
    && (visible === undefined || visible === isShown(one)));
  return operator === '==' ? found.length === count : operator === '<=' ? found.length <= count : found.length >= count;
}

module.exports = { isSecretField, whyNoTarget, focusAt, findOption, prepareField, scrollBy, areThere };
