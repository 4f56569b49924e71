// Events of transitions and animations: their cause is who changed the class or the style of the element or of one around it, if the motion starts soon
// after that, and if nothing else there can have started it. `transitionend`, `animationstart`, `animationend` of CSS.

import { findItem, keysOf } from '../core/lists.js';
import { Map, WeakMap, apply } from '../core/taken.js';
import { comesBefore } from '../recording/order.js';

/** Event types, each with the type that is dispatched first. */
const FIRST_OF_MOTION = new Map([
  ['transitionrun', 'transitionrun'], ['transitionstart', 'transitionrun'], ['transitionend', 'transitionrun'], ['transitioncancel', 'transitionrun'],
  ['animationstart', 'animationstart'], ['animationiteration', 'animationstart'], ['animationend', 'animationstart'], ['animationcancel', 'animationstart'],
]);
/** Those that always come in this order for one motion. */
const MOTIONS_IN_ORDER = ['transitionrun', 'transitionstart', 'transitionend', 'animationstart', 'animationiteration', 'animationend'];
/** A change of class or style counts as the cause of a motion that starts within this many frames. */
const FRAMES_OF_A_CHANGE = 3;
/** An animation can start by itself as its element comes, if that was less than so many milliseconds before the change. */
const LONGEST_START = 250;
/** `nodeType` of a shadow root. */
const FRAGMENT = 11;

/** @typedef {Event & {target: Element, propertyName?: string, animationName?: string, pseudoElement: string}} MotionEvent */
/** @typedef {import('../types').Moment} Moment */
/** @typedef {import('./queued.js').Cause} Cause */
/**
 * Changes of an element by one event: whether one was of its class or style, and whether other events changed it too.
 * @typedef {{moment: Moment, time: number, isOfStyle: boolean, isMixed: boolean}} Change
 */

/** One for each document: `page.motions`. */
class Motions {
  /** @param {import('../types').Page} page */
  constructor(page) {
    this.page = page;
    this.recording = page.recording;
    /**
     * The changes of an element's attributes in the last few frames.
     * @type {WeakMap<Element, Change>}
     */
    this.changed = new WeakMap();
    /**
     * When an element came into the document, and in which event.
     * @type {WeakMap<Element, {time: number, event: import('../types').TraceEvent}>}
     */
    this.came = new WeakMap();
    /**
     * By element, and by `nameOfMotion`: what started the motion. Two motions of one change have no order.
     * @type {WeakMap<Element, Map<string, Cause>>}
     */
    this.started = new WeakMap();
    /**
     * The events of starts that are noted: a dispatch notes its event, and so does the listener at the document, which hears it if no handler does.
     * @type {WeakMap<MotionEvent, boolean>}
     */
    this.heard = new WeakMap();
  }

  /** Whether the page has handlers of motions. */
  #isHeard() {
    const { listened } = this.page.capturing;
    return !!findItem(keysOf(FIRST_OF_MOTION), (type) => listened.has(type));
  }

  /**
   * An element has come: a motion directly after this may be due to it. Called by page/document/tree.js.
   * @param {Element} element
   */
  noteAdded(element) {
    this.came.set(element, { time: this.page.natives.now(), event: this.recording.running });
  }

  /**
   * A script has changed an attribute of an element. Called by page/document/tree.js.
   * @param {Element} element
   * @param {string} name of the attribute
   */
  noteChange(element, name) {
    if (!this.#isHeard()) return;
    const moment = this.recording.lastMoment();
    const isOfStyle = name === 'class' || name === 'style';
    const before = this.changed.get(element);
    if (before && before.moment.event === moment.event) {
      before.isOfStyle = before.isOfStyle || isOfStyle;
      return;
    }
    const change = { moment, time: this.page.natives.now(), isOfStyle, isMixed: !!before };
    this.changed.set(element, change);
    this.afterFrames(FRAMES_OF_A_CHANGE, () => {
      if (this.changed.get(element) === change) this.changed.delete(element);
    });
  }

  /**
   * Calls a function after so many frames. Called by queued.js.
   * @param {number} frames
   * @param {() => void} call
   */
  afterFrames(frames, call) {
    if (!frames) call();
    else this.page.natives.requestAnimationFrame(() => this.afterFrames(frames - 1, call));
  }

  /**
   * The change that starts a motion of an element: its own, or that of an ancestor. Undefined if several events changed attributes there, or if the element
   * came just before: which one it was is not known.
   * @param {MotionEvent} event
   * @returns {Change|undefined}
   */
  #changeAround({ target: element, animationName }) {
    /** @type {Change|undefined} */
    let found;
    for (let one = /** @type {Element|null} */ (element); one; one = parentOf(this.page.natives, one)) {
      const change = this.changed.get(one);
      if (change?.isMixed || (change && found && change.moment.event !== found.moment.event)) return undefined;
      if (!found || (!found.isOfStyle && change)) found = change;
    }
    return found?.isOfStyle && !(animationName && this.#hasJustCome(element, found)) ? found : undefined;
  }

  /**
   * Whether an element, or one around it, came just before a change, and by another event.
   * @param {Element} element
   * @param {Change} change
   */
  #hasJustCome(element, change) {
    for (let one = /** @type {Element|null} */ (element); one; one = parentOf(this.page.natives, one)) {
      const came = this.came.get(one);
      if (came && came.event !== change.moment.event && change.time - came.time < LONGEST_START) return true;
    }
    return false;
  }

  /**
   * A motion starts. Called by capturing.js.
   * @param {MotionEvent} event
   */
  noteStart(event) {
    if (this.heard.has(event)) return;
    this.heard.set(event, true);
    const change = this.#changeAround(event);
    const started = this.started.get(event.target) || new Map();
    this.started.set(event.target, started);
    const name = nameOfMotion(event);
    if (change) started.set(name, { moment: change.moment, isOfSeveral: true, last: this.#lastOf(started.get(name), change) });
    else started.delete(name);
  }

  /**
   * The end of the last event of the same motion before, if the change that started it comes before another one.
   * @param {Cause|undefined} before
   * @param {Change} change
   */
  #lastOf(before, change) {
    return before?.moment && comesBefore(change.moment.event, before.moment.event) ? before.last : undefined;
  }

  /**
   * What started the motion that an event belongs to. Called by queued.js.
   * @param {MotionEvent} event
   * @param {EventTarget} target
   * @returns {Cause|undefined}
   */
  causeOf(event, target) {
    if (FIRST_OF_MOTION.get(event.type) === event.type) this.noteStart(event);
    return this.started.get(/** @type {Element} */ (target))?.get(nameOfMotion(event));
  }
}

/**
 * The parent of a node; the host of a shadow root.
 * @param {import('../types').Natives} natives
 * @param {Node} node
 * @returns {Element|null}
 */
function parentOf(natives, node) {
  const parent = apply(natives.parentNode, node, []);
  return /** @type {Element|null} */ (parent && parent.nodeType === FRAGMENT ? /** @type {ShadowRoot} */ (parent).host : parent);
}

/** @param {MotionEvent} event */
const nameOfMotion = (event) => `${event.propertyName || event.animationName}|${event.pseudoElement}`;

export { FIRST_OF_MOTION, MOTIONS_IN_ORDER, Motions };
