// Helpers for global variables, also as properties of the window, in handlers of elements, and of modules. What each letter means, and which argument
// it returns: instrument/marks/helpers.js.

import { each, hasItem } from '../core/lists.js';
import { BigInt } from '../core/taken.js';
import { spellName } from '../log/spelling.js';

/**
 * The value of a variable after an expression that returns the value before.
 * @param {any} result a number or a BigInt
 * @param {number|undefined} change what the expression adds; undefined if the result is the value after it
 */
function valueAfter(result, change) {
  if (change === undefined) return result;
  return result + (typeof result === 'bigint' ? BigInt(change) : change);
}

/**
 * Helpers for names of scripts.
 * @param {import('../accesses/globals').Globals} globals
 */
function helpersOfNames(globals) {
  return {
    /** @type {(name: string, site: number) => void} */
    r: (name, site) => globals.read(name, site),
    /** @type {(name: string, site: number, value: unknown) => unknown} */
    w: (name, site, value) => {
      globals.noteValueAt(site, name, value);
      globals.write(name, site);
      return value;
    },
    /** @type {(name: string, site: number, result: unknown, change?: number) => unknown} */
    u: (name, site, result, change) => {
      globals.noteValueAt(site, name, valueAfter(result, change));
      globals.update(name, site);
      return result;
    },
    /** @type {(name: string, site: number, result: unknown, change?: number) => unknown} */
    U: (name, site, result, change) => {
      globals.noteValueAt(site, name, valueAfter(result, change));
      globals.count(name, site);
      return result;
    },
  };
}

/**
 * In the text of a handler a name can be a property of the element, its form or the document.
 * @param {import('../types').Page} page
 * @param {ReturnType<typeof helpersOfNames>} ofNames
 */
function helpersOfHandlers(page, { r, w, u, U }) {
  const { unscopables } = page.natives;
  /** @type {(element: any, name: string) => boolean} the receiver of a handler is whatever the page calls it with */
  const isOfElement = (element, name) => !!element && element.nodeType === 1 && !hasItem(unscopables, name)
    && (name in element || name in page.document || (element.form && name in element.form));
  return {
    /** @type {(element: unknown, name: string, site: number) => void} */
    rh: (element, name, site) => { if (!isOfElement(element, name)) r(name, site); },
    /** @type {(element: unknown, name: string, site: number, value: unknown) => unknown} */
    wh: (element, name, site, value) => {
      if (!isOfElement(element, name)) w(name, site, value);
      return value;
    },
    /** @type {(element: unknown, name: string, site: number, result: unknown, change?: number) => unknown} */
    uh: (element, name, site, result, change) => {
      if (!isOfElement(element, name)) u(name, site, result, change);
      return result;
    },
    /** @type {(element: unknown, name: string, site: number, result: unknown, change?: number) => unknown} */
    Uh: (element, name, site, result, change) => {
      if (!isOfElement(element, name)) U(name, site, result, change);
      return result;
    },
  };
}

/**
 * Properties of an object that might be the window.
 * @param {import('../types').Page} page
 */
function helpersOfWindow({ globals, window }) {
  return {
    /** @type {(object: unknown, name: string, site: number) => unknown} */
    ro: (object, name, site) => { if (object === window) globals.read(name, site); return object; },
    /** @type {(object: unknown, name: string, site: number) => unknown} */
    wo: (object, name, site) => {
      if (object === window) {
        globals.noteValueAt(site, name, undefined);
        globals.write(name, site);
      }
      return object;
    },
    /** @type {(object: unknown, name: string, site: number) => unknown} */
    uo: (object, name, site) => {
      if (object === window) {
        globals.noteValueAt(site, name, undefined);
        globals.update(name, site);
      }
      return object;
    },
    /** @type {(object: unknown, name: string, site: number, value: unknown) => unknown} */
    fo: (object, name, site, value) => { if (object === window) globals.write(name, site); return value; },
  };
}

/**
 * Variables of modules and their imports.
 * @param {import('../types').Page} page
 */
function helpersOfModules({ globals, imports, recording }) {
  /** @type {(modes: string[]) => (module: number, name: string, site: number, value?: unknown) => unknown} */
  const ofModule = (modes) => (module, name, site, value) => {
    if (typeof module !== 'number' || !globals.isFirst(site)) return value;
    each(modes, (mode) => recording.accessNow(mode, `var ${module} ${spellName(name)}`, site));
    return value;
  };
  return {
    rm: ofModule(['r']), wm: ofModule(['w']), um: ofModule(['r', 'w']),
    /** @type {(module: number, name: string, site: number) => void} */
    V: (module, name, site) => imports.read(module, name, site),
    /** @type {import('../accesses/imports').Imports['note']} */
    E: (module, scope, own, others, wholes) => { if (typeof module === 'number') imports.note(module, scope, own, others, wholes); },
  };
}

/**
 * The helpers of global variables, handlers, the window and modules.
 * @param {import('../types').Page} page
 */
function helpersOfGlobals(page) {
  const ofNames = helpersOfNames(page.globals);
  return { ...ofNames, ...helpersOfHandlers(page, ofNames), ...helpersOfWindow(page), ...helpersOfModules(page) };
}

export { helpersOfGlobals };
