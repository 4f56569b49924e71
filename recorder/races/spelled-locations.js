'use strict';
// What the text of a location in a trace says about it.

const { FIRST_FIELD, FIRST_MODULE } = require('../common/numbers.js');

/** Cookies and storage, by the text of their locations. */
const STORED = /^(document\.cookie$|localStorage\.|sessionStorage\.)/;

/**
 * A map's key that is an object contains a number of the run. Called by list/lasting.js and named-run.js.
 * @param {string} name
 */
const withoutKeys = (name) => name.replace(/^\[object%20\d+\]$/, '[object]');

/**
 * The name by which an access is looked for. Called by keys.js.
 * @param {string} kind
 * @param {string} spelled
 */
const nameOf = (kind, spelled) => (kind === 'slot' ? spelled.replace(/\/\d+$/, '') : withoutKeys(spelled));

/**
 * Splits a location of the trace into its kind (`var`, `elem`, ..), its number and its name. The number is that of a document or an object.
 * @param {string} location
 */
function partsOf(location) {
  const afterKind = location.indexOf(' ');
  const afterNumber = location.indexOf(' ', afterKind + 1);
  return { kind: location.slice(0, afterKind), number: Number(location.slice(afterKind + 1, afterNumber)), name: location.slice(afterNumber + 1) };
}

/**
 * Whether a location is a variable of an element that no user fills in. Called by list/looks.js, list/patterns/accesses.js and list/problems.js.
 * @param {string} location
 */
function isOfTree(location) {
  const { kind, number, name } = partsOf(location);
  return kind === 'var' && number >= FIRST_FIELD && number < FIRST_MODULE && name !== 'value' && name !== 'checked';
}

/**
 * Whether a write to a location that does not change the value is recorded as a read, or not at all where the action has read the location before. In the
 * other order the write may be recorded in another way, and at another place. Called by list/lasting.js and keys.js.
 * @param {string} location
 */
function isByValue(location) {
  const { kind, number, name } = partsOf(location);
  if (kind !== 'var' || STORED.test(name)) return false;
  return number >= FIRST_MODULE || number < FIRST_FIELD || isOfTree(location);
}

module.exports = { isByValue, isOfTree, nameOf, withoutKeys };
