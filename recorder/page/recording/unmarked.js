// Whether code without marks may have run: only a look at the window shows which global variables that wrote (page/accesses/unseen.js). Such a look takes
// longer than most actions, so it is left out after pieces of marked code.

import { findItem } from '../core/lists.js';
import { settings } from '../core/settings.js';
import { fits } from '../core/strings.js';
import { WeakSet } from '../core/taken.js';

/**
 * Whether a context can have code without marks: a script that inserts another one, or a handler attribute, whose names can be those of its element.
 * @param {string} context
 */
const hasUnmarked = (context) => context === 'script' || context === 'attribute';
/** Texts of functions that write nothing, as libraries use them to find the window. */
const WRITES_NOTHING = /^\s*(?:return\s+)?(?:this|globalThis|window|self)\s*;?\s*$/;
/** Text that can make a function, which can run in any later piece. */
const MAKES_FUNCTIONS = /function|=>|\bclass\b|\)\s*\{|\beval\b|\bset(?:Timeout|Interval)\b|^$/;
const IS_DATA = /^\s*(?:data|blob):/i;
/** One of so many pieces is looked at in any case, as there might be code of which nothing here knows. */
const ONE_OF = 32;

/** One for each recording: `recording.unmarked`. */
class Unmarked {
  constructor() {
    /** It may run in any piece: a program drives the page, the depth leaves properties of the window unmarked, or there is code that can run at any time. */
    this.isAnywhere = settings.isDriven || settings.depth !== 'objects';
    this.isInPiece = false;
    this.pieces = 0;
    /**
     * The script elements whose runs had marks.
     * @type {WeakSet<Element>}
     */
    this.marked = new WeakSet();
  }

  /** A call of the running piece can write global variables. Called by page/accesses/unseen.js and page/events/dispatches.js. */
  noteInPiece() {
    this.isInPiece = true;
  }

  /** Code without marks is there from now on. Called by page/accesses/unseen.js, page/scripts/, page/main.js and recording.js. */
  noteAnywhere() {
    this.isAnywhere = true;
  }

  /**
   * Code is made of a text. Called by page/helpers/runs.js and page/tasks/timers.js.
   * @param {unknown} text
   */
  noteText(text) {
    if (typeof text !== 'string' || !fits(WRITES_NOTHING, text)) this.isAnywhere = true;
  }

  /**
   * The handler of an attribute runs. Called by page/events/on-handlers.js.
   * @param {string} text that of the attribute, or '' if it is not known
   */
  noteAttribute(text) {
    if (fits(MAKES_FUNCTIONS, text)) this.isAnywhere = true;
  }

  /**
   * A script has come whose text is not in the page. Called by page/scripts/insertions.js.
   * @param {string} address
   */
  noteAddress(address) {
    if (fits(IS_DATA, address)) this.isAnywhere = true;
  }

  /**
   * A script has loaded, so it has run: without a note of that it had no marks. Called by page/document/loading.js.
   * @param {Element} element
   */
  noteLoaded(element) {
    if (!this.marked.has(element)) this.isAnywhere = true;
  }

  /**
   * Whether the window is to be looked at after a piece of code. Called by recording.js.
   * @param {string[]} contexts what is on the stack
   */
  takeDue(contexts) {
    const isDue = this.isAnywhere || this.isInPiece || ++this.pieces >= ONE_OF || findItem(contexts, hasUnmarked) !== undefined;
    if (isDue) this.pieces = 0;
    this.isInPiece = false;
    return isDue;
  }
}

export { Unmarked };
