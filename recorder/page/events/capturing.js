// The recorder's own listeners, which see each dispatch of a type begin before any handler of the page runs; and dispatches that no handler hears.
// `stopPropagation` and `stopImmediatePropagation` of the page hide no event from them.

import { each, hasItem, valuesOf } from '../core/lists.js';
import { Set, apply } from '../core/taken.js';
import { isThing } from '../core/things.js';
import { FIRST_OF_MOTION } from './motions.js';

const ALWAYS_RECORDED = [
  'click', 'dblclick', 'mousedown', 'mouseup', 'keydown', 'keypress', 'keyup', 'input', 'change', 'submit', 'reset',
  'focus', 'blur', 'DOMContentLoaded', 'load', 'message', 'hashchange', 'popstate',
];

/** The events that come next after the parsing. */
const AFTER_PARSING = ['readystatechange', 'DOMContentLoaded'];

/** `nodeType` of a shadow root. */
const FRAGMENT = 11;

/** One for each document: `page.capturing`. */
class Capturing {
  /** @param {import('../types').Page} page */
  constructor(page) {
    this.page = page;
    this.recording = page.recording;
    this.natives = page.natives;
    /**
     * The types that the recorder listens for, and those of them that are recorded.
     * @type {Set<string>}
     */
    this.captured = new Set();
    /** @type {Set<string>} */
    this.listened = new Set();
    this.see = (/** @type {Event} */ event) => this.#sight(event);
  }

  /** Listens to what is always recorded. One call per document, before its code runs. */
  start() {
    each(ALWAYS_RECORDED, (type) => this.capture(type));
    this.#captureAt('error');
    // their causes are looked for only once the page listens (queued.js)
    apply(this.natives.addEventListener, this.page.window, ['unhandledrejection', this.see, true]);
  }

  /**
   * Listens to a type of events from now on. Called for each handler that is registered.
   * @param {string} type
   */
  capture(type) {
    this.listened.add(type);
    this.#captureAt(type);
  }

  /**
   * Listens at the window for a type, before any listener of the page; once for each type.
   * @param {string} type
   */
  #captureAt(type) {
    if (this.captured.has(type)) return;
    this.captured.add(type);
    const { window, document, motions } = this.page;
    const listen = this.natives.addEventListener;
    if (type === 'unhandledrejection') this.recording.tellsRejections = true;
    const first = FIRST_OF_MOTION.get(type);
    if (first) apply(listen, document, [first, (/** @type {import('./motions.js').MotionEvent} */ event) => motions.noteStart(event), true]);
    if (hasItem(AFTER_PARSING, type)) apply(listen, window, [type, letMicrotasksRun, true]);
    apply(listen, window, [type, this.see, true]);
    if (type === 'load') apply(listen, document, [type, this.see, true]);
  }

  /** `document.open` removes all listeners. Called by calls.js and page/page.js. */
  captureAgain() {
    const types = valuesOf(this.captured);
    this.captured.clear();
    each(types, (type) => this.#captureAt(type));
  }

  /**
   * An event is seen first of all listeners: its dispatch begins, if it has begun nowhere else.
   * @param {Event} event
   */
  #sight(event) {
    if (this.recording.isOver || this.recording.steering.keepsEvent(event)) return;
    if (event.type === 'error') this.#sightError(/** @type {ErrorEvent} */ (event));
    else if ((event.type === 'message' && event.target !== this.page.window) || this.#isOfTheRecorder(event)) return;
    else if (!this.page.dispatches.find(event)) this.#begin(event);
  }

  /**
   * The recorder's own listener: no handler of the page has run yet.
   * @param {Event} event
   */
  #begin(event) {
    this.page.dispatches.begin(event, event.currentTarget);
  }

  /**
   * The tab gets the focus as the recording begins, which is nothing of the page's: unless there is a handler, nothing is written of it.
   * @param {Event} event
   */
  #isOfTheRecorder({ type, target, isTrusted }) {
    const { recording, page } = this;
    const isFirst = type === 'focus' && isTrusted && target === page.window && page.number === 0 && !recording.hasFocus;
    if (isFirst) recording.hasFocus = true;
    return isFirst && !recording.contexts.length && !recording.act;
  }

  // ---- events of scripts that nobody listens to

  /**
   * A script has dispatched an event. If no dispatch was recorded, because nobody has listened to the type so far, the running action looks for
   * handlers: a later one can register some. Called by calls.js.
   * @param {Event} event
   * @param {import('../types').Target} target
   */
  noteUnheard(event, target) {
    const { recording, page: { dispatches, elements } } = this;
    if (recording.isOver || !recording.isRunning() || !isThing(event) || dispatches.told.delete(event)) return;
    recording.finishReturned();
    const path = this.#pathOf(target);
    each(path, (node) => elements.number(node));
    dispatches.readSlots(path, event.type, apply(this.natives.bubbles, event, []));
  }

  /**
   * The path of an event at a target: its ancestors, and the window.
   * @param {import('../types').Target} target
   * @returns {EventTarget[]}
   */
  #pathOf(target) {
    const { natives, page: { window, document } } = this;
    if (!isOfTree(target, window) || target === window) return [target];
    /** @type {EventTarget[]} */
    const path = [];
    let node = /** @type {Node|null} */ (target);
    while (node) {
      path[path.length] = node;
      node = apply(natives.parentNode, node, []) || (node.nodeType === FRAGMENT ? /** @type {ShadowRoot} */ (node).host : null);
    }
    if (path[path.length - 1] === document) path[path.length] = window;
    return path;
  }

  // ---- errors

  /**
   * The error event of a script that threw comes inside its run, and the run is over then.
   * @param {ErrorEvent} event
   */
  #sightError(event) {
    const { recording, page } = this;
    const isOfWindow = event.target === page.window;
    if (isOfWindow && recording.contexts[recording.contexts.length - 1] === 'script') {
      page.scripts.noteEnd();
      this.#endCode(event);
      recording.leaveCall();
    } else if (isOfWindow && page.modules.isRunning()) {
      this.#endCode(event);
      page.modules.close();
    } else if ((isOfWindow || this.listened.has('error')) && !page.dispatches.find(event)) this.#beginError(event, isOfWindow);
  }

  /**
   * A script or a module has thrown: its run is over.
   * @param {ErrorEvent} event
   */
  #endCode(event) {
    this.recording.endPiece();
    this.#begin(event);
  }

  /**
   * @param {ErrorEvent} event
   * @param {boolean} isOfWindow
   */
  #beginError(event, isOfWindow) {
    const { recording } = this;
    const isInEvent = isOfWindow && !recording.contexts.length && (recording.isCheckpoint || this.page.broken.run(event));
    if (isInEvent) recording.enter('call');
    this.#begin(event);
    if (isInEvent) recording.contexts.length--;
  }
}

/**
 * As this listener returns, the browser runs the microtasks that the last parse steps queued (mutation observers, `slotchange`). So they run before the
 * next listener begins the dispatch, as in the HTML Standard.
 */
const letMicrotasksRun = () => {};

/**
 * Whether a target is a node or the window. Called by dispatches.js.
 * @param {import('../types').Target} target
 * @param {EventTarget} window
 */
const isOfTree = (target, window) => target === window || !!target.nodeType;

export { isOfTree, Capturing };
