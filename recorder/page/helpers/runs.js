// Helpers at the start and the end of scripts, modules, handlers and `javascript:` addresses, and around dynamic imports.

import { MADE_OF_TEXT } from '../log/log.js';

/**
 * The helpers at the start and the end of scripts, modules and `javascript:` addresses.
 * Called by helpers.js.
 * @param {import('../types').Page} page
 */
function helpersOfScripts({ addresses, globals, insertedModules, messages, modules, recording, scripts }) {
  return {
    /** @type {(element: HTMLScriptElement|null, site: number, functions: [string, number][], taken?: [string, boolean][]) => void} */
    scriptBegins: (element, site, functions, taken) => {
      if (taken) globals.take(taken);
      scripts.begins(element, site, functions);
    },
    scriptEnds: () => { scripts.ends(); },
    /** @type {(address: string, site: number, sources?: string[]) => void} */
    moduleBegins: (address, site, sources) => { modules.begins(address, site, sources); },
    /** @type {(address: string) => void} */
    moduleEnds: (address) => { modules.ends(address); },
    /** @type {(number: number) => void} */
    insertedModule: (number) => { insertedModules.begins(number); },
    addressBegins: () => { addresses.begins(); },
    addressEnds: () => { addresses.ends(); },
    /** @type {(specifier: unknown, site: number, base: string) => unknown} */
    ai: (specifier, site, base) => modules.importAsked(specifier, site, base),
    /** @type {(promise: Promise<unknown>) => Promise<unknown>} */
    ap: (promise) => modules.noteImport(promise),
    /** @type {(text: unknown) => unknown} */
    made: (text) => {
      recording.log.miss(MADE_OF_TEXT);
      recording.unmarked.noteText(text);
      return text;
    },
    /** @type {(object: unknown) => unknown} */
    un: (object) => { recording.unmarked.noteAnywhere(); return object; },
    /** @type {(word: unknown) => unknown} */
    po: (word) => { recording.poster = messages; return word; },
    /** @type {(script: Element) => void} */
    removeHold: (script) => { recording.steering.removeHold(script); },
  };
}

/**
 * Handlers of attributes run one in another. Called by helpers.js.
 * @param {import('../types').Page} page
 */
function helpersOfAttributes(page) {
  /**
   * The handlers that run, from the innermost on: a list that no function of the page sees.
   * @typedef {{dispatch: import('../types').Dispatch|null, outer: Running}|null} Running
   * @type {Running}
   */
  let running = null;
  return {
    /** @type {(element: EventTarget, event: Event|undefined, type: string) => void} */
    handlerBegins: (element, event, type) => {
      running = { dispatch: page.onHandlers.attributeBegins(element, event, type), outer: running };
    },
    handlerEnds: () => {
      if (running === null) return;
      const { dispatch } = running;
      running = running.outer;
      page.dispatches.handlerEnds(dispatch);
    },
  };
}

export { helpersOfScripts, helpersOfAttributes };
