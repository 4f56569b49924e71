// The helpers that marked code calls, in a world without a browser, with a recording in which one action runs (same.test.js).

import { withoutMarks } from '../page/core/marks.js';
import { MISSING, UNKNOWN } from '../page/log/values.js';
import { helpersOfObjects } from '../page/helpers/helpers.js';
import { Objects } from '../page/objects/objects.js';

/** @typedef {unknown} Value of the code that calls helpers */

/** @param {import('../page/types').PageWindow} window */
function helpersOfWorld(window) {
  const nothing = () => {};
  /** @type {string[]} */
  const lines = [];
  const recording = { actions: 1, isOver: false, mayAccess: () => true, makingAction: () => 0, log: { line: (/** @type {string} */ text) => lines.push(text), name() {}, miss() {} }, next: () => 1 };
  const objects = new Objects(/** @type {import('../page/types').Recording} */ (/** @type {unknown} */ (recording))); // as far as the helpers use one
  Object.assign(objects.trees, {
    addWindow() {}, notePart: () => false, variableOf: () => null, call() {}, accessAttribute() {}, number: () => 1, isNode: () => false, valueOf: () => UNKNOWN,
  });
  Object.assign(window, { Node: class {}, Storage: class {} });
  const globals = { lastPieces: [], read() {}, write() {}, update() {}, count() {}, valueOf: () => MISSING, noteValue() {} };
  objects.addWindow(/** @type {import('../page/types').Page} */ (/** @type {unknown} */ ({ window, globals }))); // as far as the helpers use one
  const { prototype } = window.Function;
  const { toString } = prototype;
  prototype.toString = { toString() { return withoutMarks(toString.call(this)); } }.toString;
  const third = (/** @type {string} */ name, /** @type {number} */ site, /** @type {Value} */ value) => value;
  const act = () => { objects.settleWrites(); recording.actions++; objects.forget(); };
  const first = (/** @type {Value} */ object) => object;
  const fo = (/** @type {Value} */ object, /** @type {string} */ name, /** @type {number} */ site, /** @type {Value} */ value) => value;
  return {
    ...helpersOfObjects(objects), r: nothing, w: third, u: third, U: third, ro: first, wo: first, uo: first, fo, made: first, un: first, po: first, aw: first, ao: first, ai: first, ap: first,
    as: nothing, scriptBegins: nothing, scriptEnds: nothing, lines, act,
  };
}

export { helpersOfWorld };
