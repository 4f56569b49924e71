// The helpers of a document that is not recorded (a sandboxed frame, one of another origin), whose scripts are instrumented all the same: each returns one of
// its arguments.

import { each } from '../core/lists.js';
import { settings } from '../core/settings.js';
import { words } from '../core/strings.js';

/** @typedef {{[name: string]: ((...args: any[]) => unknown)|null}} IdleHelpers the arguments are whatever the page passes */

/**
 * Helpers that do nothing and answer what the marks expect: in a document that is not recorded.
 * Called by page/main.js.
 */
function idleHelpers() {
  const helpers = /** @type {IdleHelpers} */ ({ t: null, __proto__: null });
  each(words(settings.withoutAnswer), (name) => { helpers[name] = () => {}; });
  each(settings.answers, (names, k) => each(words(names), (name) => { helpers[name] = (...args) => args[k]; }));
  return helpers;
}

export { idleHelpers };
