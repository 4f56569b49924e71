// jQuery's `ready`, which `$(callback)` asks for too: what a page hands to it runs after the parsing in every order. For code that comes late jQuery sets a
// timeout in the call, and no rule puts that after the parsing. A reader of the list gets the place of the page's call for each of its timeouts.

import { joined } from '../core/lists.js';
import { replaceMethod, showAs } from '../core/replacing.js';
import { Set, WeakSet, apply, getOwnPropertyDescriptor, getPrototypeOf } from '../core/taken.js';
import { placeOnStack } from '../log/stack.js';

/** The library whose `ready` is known. */
const LIBRARY = 'jQuery';
/** The names by which code has it. */
const NAMES_OF_LIBRARY = new Set([LIBRARY, '$']);

/** One for each document: `page.ready`. */
class Ready {
  /** @param {import('../types').Page} page */
  constructor(page) {
    this.page = page;
    this.recording = page.recording;
    this.functions = page.window.Function.prototype;
    /** How many calls of `ready` are running. */
    this.running = 0;
    /** The prototypes that were looked at: what the page puts in the place of their `ready` later is left alone. */
    this.seen = new WeakSet();
  }

  /**
   * A global variable is read, or has a value: the page might have jQuery by now. Called by page/accesses/globals.js and page/accesses/unseen.js.
   * @param {string} name that of the variable
   */
  look(name) {
    if (!NAMES_OF_LIBRARY.has(name)) return;
    const library = this.page.globals.valueOf(LIBRARY);
    if (typeof library !== 'function' || !this.#isOfWindow(library)) return;
    const methods = getOwnPropertyDescriptor(library, 'fn')?.value;
    if (typeof methods !== 'object' || methods === null || this.#isProxy(methods) || this.seen.has(methods)) return;
    const found = getOwnPropertyDescriptor(methods, 'ready');
    if (typeof found?.value !== 'function') return;
    this.seen.add(methods);
    if (found.configurable) this.#replace(methods);
  }

  /**
   * A page's jQuery in a variable of its frame waits for the page.
   * @param {Function} library
   */
  #isOfWindow(library) {
    return !this.#isProxy(library) && getPrototypeOf(library) === this.functions;
  }

  /**
   * Whether an object would run code of the page if it were looked at.
   * @param {object} object
   */
  #isProxy(object) {
    const { objects } = this.recording;
    return objects !== null && objects.kinds.isLeftOut(object);
  }

  /**
   * A jQuery waits for the document that the window showed when it came: the frame's next page may get it with the window.
   * @param {{ready?: Function}} methods
   */
  #replace(methods) {
    const asked = this;
    const { document } = this.page;
    replaceMethod(methods, 'ready', (own) => function ready(callback) {
      if (asked.recording.isOver || typeof callback !== 'function') return apply(own, this, arguments);
      const words = joined(arguments);
      words[0] = asked.#wrap(callback, document, placeOnStack());
      asked.running++;
      try {
        return apply(own, this, words);
      } finally {
        asked.running--;
      }
    });
  }

  /**
   * What runs while a call does is in the caller's event, and the rest of that is not after the parsing in every order. What a callback passes on
   * in such a call runs after its own call, and still inside the first.
   * @param {Function} callback
   * @param {Document} document for which its jQuery waits
   * @param {string} place of the page's call
   * @returns {import('../types').Method}
   */
  #wrap(callback, document, place) {
    const asked = this;
    /** @type {import('../types').Method} */
    const run = function run() {
      if (asked.running === 0 && document === asked.page.document) {
        asked.#tellPlace(place);
        asked.#comeAfterParsing();
      }
      return apply(callback, this, arguments);
    };
    if (!this.#isProxy(callback)) showAs(run, callback);
    return run;
  }

  /**
   * The timeout that runs a callback is one of jQuery's.
   * @param {string} place where the page passed the callback
   */
  #tellPlace(place) {
    const { timeout } = this.recording.running;
    if (!this.recording.isOver && timeout !== undefined && place) this.recording.log.name('timeout', timeout, { ready: place });
  }

  /** A timeout that runs such a callback is jQuery's own; another event is the page's, or has its order by a rule. */
  #comeAfterParsing() {
    const { recording, page } = this;
    if (recording.isOver || recording.running.kind !== 'timer') return;
    const ends = page.loading.endOfParsing();
    if (!page.joins.needed(ends).length) return;
    recording.endPiece();
    page.joins.here(ends, 'the end of parsing');
  }
}

export { Ready };
