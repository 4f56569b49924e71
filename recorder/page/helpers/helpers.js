// What instrumented code calls: the properties of `__er`. Their names are short, as they are many times in it: instrument/marks/helpers.js explains them.

import { helpersOfAwaits } from './awaits.js';
import { helpersOfGlobals } from './globals.js';
import { helpersOfProperties } from './properties.js';
import { helpersOfAttributes, helpersOfScripts } from './runs.js';
import { helpersOfScopes } from './scopes.js';
import { helpersOfCalls, helpersOfCopies, helpersOfFirsts, helpersOfWholes } from './wholes.js';

/**
 * The helpers for objects and closures. `t` is where instrumented code keeps an object for the next helper.
 * @param {import('../types').Objects} objects
 */
function helpersOfObjects(objects) {
  return {
    t: null, ...helpersOfProperties(objects), ...helpersOfScopes(objects),
    ...helpersOfWholes(objects), ...helpersOfCopies(objects), ...helpersOfCalls(objects), ...helpersOfFirsts(objects),
  };
}

/**
 * All helpers of a document, which `__er` has. Without objects (`--depth globals`) those of objects are missing.
 * Called by page/main.js.
 * @param {import('../types').Page} page
 */
function helpersOf(page) {
  const { objects } = page.recording;
  return {
    ...(objects ? helpersOfObjects(objects) : {}),
    ...helpersOfGlobals(page), ...helpersOfAwaits(page), ...helpersOfScripts(page), ...helpersOfAttributes(page),
  };
}

export { helpersOf, helpersOfObjects };
