// What a user can reach, and from when on (a button that can be clicked or pressed). An element that was hidden ever since it came, or that its code put into
// the page later than it made it, gets no act of a user before code shows it: each act is after the code that did so first. The browser itself is asked, before
// the code of each task and after it: what has changed meanwhile, that code has shown, and what changed outside of it (a style sheet, an animation, the pointer
// over a menu) may be reached at any time.

import { each, findItem, keep, keysOf } from '../core/lists.js';
import { fits } from '../core/strings.js';
import { Map, Set, WeakSet, apply } from '../core/taken.js';
import { isElement } from '../core/things.js';
import { Filled } from './filled.js';
import { Inert } from './inert.js';
import { Places, parentOf } from './places.js';

/** Nobody acts at these, or they are there without a box of their own. */
const HAS_NO_BOX = /^(?:area|base|br|col|colgroup|head|html|link|meta|noscript|optgroup|option|param|script|source|style|template|title|track|wbr)$/;
const BY_POINTER = /^(?:mouse|pointer|touch|drag|(?:click|dblclick|auxclick|wheel|drop)$)/;
const BY_KEYS = new Set(['keydown', 'keypress', 'keyup', 'beforeinput', 'textInput', 'input', 'change', 'focus', 'focusin', 'blur', 'focusout',
  'contextmenu']); // which has a key of its own
/** Fields whose value comes by a window of the browser, which code opens for a hidden one too. */
const ASKS_BY_WINDOW = /^(?:file|color|date|datetime-local|month|time|week)$/;
const ASKS_VISIBILITY = { visibilityProperty: true, __proto__: null };
/** Nothing finds it; keys do; a pointer too. */
const HIDDEN = 0;
const FOR_KEYS = 1;
const IN_REACH = 2;
const MOST_HIDDEN = 1000;
/** All looks together take at most this many milliseconds: after that no further order comes of them. */
const LONGEST_IN_ALL = 1000;

/** @typedef {import('../types').Moment} Moment */
/** @typedef {import('../types').Target} Target */
/** @typedef {import('../document/tree.js').Maker} Maker */
/**
 * What is known of an element: whether it has no box, and the code that first made it reachable by keys and by a pointer (null: at any time).
 * @typedef {{isRoot: boolean, keys: Moment|null|undefined, pointer: Moment|null|undefined}} State
 */

/** @typedef {Animation & {transitionProperty?: string, effect: KeyframeEffect|null}} Transition */

/** One for each document: `page.reach`. */
class Reach {
  /** @param {import('../types').Page} page */
  constructor(page) {
    this.page = page;
    this.recording = page.recording;
    this.natives = page.natives;
    /** By element: its state, or null where a user may reach it at any time. What is in something without a box has no state of its own. */
    this.states = this.recording.reaches;
    this.came = this.recording.came;
    /** @type {{element: Element, isMade: boolean}[]} */
    this.fresh = [];
    /** @type {Map<Element, State>} */
    this.waiting = new Map();
    /** What is in something without a box. */
    this.covered = new WeakSet();
    /**
     * The transitions that show something now, as the browser says after the code of a task.
     * @type {Transition[]}
     */
    this.unfolding = [];
    this.unfolded = new WeakSet();
    this.timeInAll = 0;
    this.inert = new Inert(page);
    this.places = new Places(page);
    this.filled = new Filled(page);
  }

  // ---- what comes

  /**
   * An element has come into the document, or to another place in it. Called by page/document/tree.js.
   * @param {Element} element
   * @param {Maker} maker
   */
  noteAdded(element, maker) {
    if (fits(HAS_NO_BOX, element.localName)) return;
    this.places.noteAdded(element, maker === 'script');
    if (!this.came.has(element)) {
      this.came.add(element);
      this.fresh[this.fresh.length] = { element, isMade: maker === 'script' };
    } else if (!this.states.get(element)) this.states.set(element, null);
  }

  // ---- looks

  /** Code of a task begins: what can be reached now has no cause that is known. Called by page/recording/recording.js. */
  lookBefore() {
    this.#look(null);
  }

  /** Code of a task, and its jobs, are over: it has shown what can be reached now, and could not be before. Called by page/recording/recording.js. */
  lookAfter() {
    this.#look(this.recording.lastMoment());
  }

  /** Looks at all elements that were out of reach, and notes a moment for those that came into reach. */
  #look(/** @type {Moment|null} */ moment) {
    const { natives } = this;
    if (!natives.checkVisibility || this.recording.isOver || !(this.waiting.size || this.fresh.length)) return;
    const began = natives.now();
    this.inert.begin();
    this.places.begin();
    this.unfolding = moment && this.waiting.size ? this.#findUnfolding() : [];
    const { waiting } = this;
    each(keysOf(waiting), (element) => this.#lookAgain(element, /** @type {State} */ (waiting.get(element)), moment));
    const { fresh } = this;
    this.fresh = [];
    if (this.timeInAll <= LONGEST_IN_ALL) each(fresh, (one) => this.#lookFirstAt(one, moment));
    this.timeInAll += natives.now() - began;
    if (this.timeInAll > LONGEST_IN_ALL && this.waiting.size) this.#giveUp();
  }

  /** A page of so many hidden elements, or so many tasks: acts at what is still hidden get no order. */
  #giveUp() {
    this.recording.log.miss('what shows hidden elements: the page has too many of them');
    each(keysOf(this.waiting), (element) => this.#forget(element));
  }

  /**
   * What the parser made, and no look has met before code ran: that code might have hidden it.
   * @param {{element: Element, isMade: boolean}} added
   * @param {Moment|null} moment
   */
  #lookFirstAt({ element, isMade }, moment) {
    if (isMade || !moment) this.#lookFirst(element, isMade ? moment : null, !isMade);
    else if (!this.states.has(element)) this.states.set(element, null);
  }

  /**
   * An element that no look has met before. `moment` is the code that put it there.
   * @param {Element} element
   * @param {Moment|null} moment
   * @param {boolean} isParsed whether the parser has made it, and no code has run since
   */
  #lookFirst(element, moment, isParsed = false) {
    if (this.states.has(element) || !apply(this.natives.isConnected, element, [])) return;
    if (this.#isCovered(element)) {
      this.covered.add(element);
      return;
    }
    const level = this.#levelOf(element);
    const cause = moment && moment.event !== this.page.elements.makers.get(element) ? moment : null; // its maker is before it by a rule
    const filling = isParsed && level === IN_REACH ? this.#fillingOf(element) : null;
    if (level === IN_REACH && !cause && !filling) return;
    /** @type {State} */
    const state = { isRoot: level === HIDDEN && this.#displayOf(element) === 'none', keys: undefined, pointer: filling || undefined };
    if (level === HIDDEN && !state.isRoot && this.#displayOf(element) === 'contents') return;
    this.states.set(element, state);
    if (level < IN_REACH && this.waiting.size < MOST_HIDDEN) this.waiting.set(element, state);
    else if (level < IN_REACH) this.states.set(element, null);
    this.#settle(state, level, cause);
  }

  /** The parse step before which a pointer finds nothing of an element, or null. */
  #fillingOf(/** @type {Element} */ element) {
    return !this.places.isExhausted() && this.places.isAimedAt(element) ? this.filled.momentOf(element) : null;
  }

  /**
   * Whether it is in something without a box, whose state is its own too.
   * @param {Element} element
   */
  #isCovered(element) {
    const parent = parentOf(this.natives, element);
    return !!parent && (this.covered.has(parent) || this.#isHiddenRoot(parent));
  }

  /** @param {Element} element */
  #isHiddenRoot(element) {
    const state = this.states.get(element);
    return !!state && state.isRoot && state.keys === undefined;
  }

  /**
   * Looks whether a hidden element can be reached now; if so, by the code of `moment`, or null if no code ran.
   * @param {Element} element
   * @param {State} state
   * @param {Moment|null} moment
   */
  #lookAgain(element, state, moment) {
    if (!apply(this.natives.isConnected, element, [])) return;
    const before = state.keys === undefined;
    if (!before && this.places.isExhausted()) {
      this.#forget(element);
      return;
    }
    const level = this.#isUnfolding(element) ? IN_REACH : this.#levelOf(element);
    if (level === IN_REACH && !moment && state.keys === null && state.pointer === undefined) state.pointer = this.#fillingOf(element) || undefined;
    this.#settle(state, level, moment);
    if (level === IN_REACH) this.waiting.delete(element);
    if (state.isRoot && before && level > HIDDEN) this.#lookInside(element);
  }

  /**
   * An element has a box now: what is in it is looked at for the first time.
   * @param {Element} root
   */
  #lookInside(root) {
    each(apply(this.natives.querySelectorAll, root, ['*']), (element) => {
      this.covered.delete(element);
      if (!fits(HAS_NO_BOX, element.localName)) this.#lookFirst(element, null);
    });
  }

  /** What a transition begins to make visible: it has its old look until the next frame, and nobody but the code of this task has begun it. */
  #findUnfolding() {
    const isOfShowing = (/** @type {Transition} */ { transitionProperty, effect }) => {
      if (transitionProperty !== 'visibility' || !effect || !effect.target || this.unfolded.has(effect)) return false;
      this.unfolded.add(effect);
      const frames = effect.getKeyframes();
      return frames.length > 0 && frames[frames.length - 1].visibility === 'visible';
    };
    return keep(/** @type {Transition[]} */ (apply(this.natives.getAnimations, this.page.document, [])), isOfShowing);
  }

  /** @param {Element} element */
  #isUnfolding(element) {
    return !!findItem(this.unfolding, ({ effect }) => effect && effect.target && apply(this.natives.contains, effect.target, [element]));
  }

  /**
   * Notes since when keys and pointers reach an element, if this is new.
   * @param {State} state
   * @param {number} level
   * @param {Moment|null} moment
   */
  #settle(state, level, moment) {
    if (level > HIDDEN && state.keys === undefined) state.keys = moment;
    if (level === IN_REACH && state.pointer === undefined) state.pointer = moment;
  }

  // ---- what the browser says

  /** @param {Element} element */
  #displayOf(element) {
    return this.natives.getComputedStyle(element).display;
  }

  /**
   * How a user reaches an element now: not at all, by keys only, or by a pointer too. Asking for places is slow: after a while it is not done.
   * @param {Element} element
   */
  #levelOf(element) {
    const { natives } = this;
    if (!apply(natives.checkVisibility, element, [ASKS_VISIBILITY]) || this.inert.has(element)) return HIDDEN;
    return this.places.isExhausted() || !this.places.isAimedAt(element) || this.places.isForPointer(element) ? IN_REACH : FOR_KEYS;
  }

  // ---- acts

  /**
   * What an act at an element comes after. Called by controls.js.
   * @param {Event} event
   * @param {Target} target
   * @returns {Moment[]}
   */
  momentsOf(event, target) {
    const way = this.#wayOf(event, target);
    if (!way) return [];
    if (this.fresh.length && !this.recording.contexts.length) this.lookBefore(); // no code has run by now
    /** @type {Moment[]} */
    const moments = [];
    for (let element = /** @type {Element|null} */ (target); element && element.nodeType === 1; element = parentOf(this.natives, element)) {
      const state = this.states.get(element);
      if (state === null) break;
      if (!state || (element !== target && !state.isRoot)) continue;
      const moment = element === target ? state[way] : state.keys;
      if (moment === undefined) this.#forget(element); // it was reached all the same
      else if (moment) moments[moments.length] = moment;
    }
    return moments;
  }

  /**
   * What is not known of an element by now gives no order. What is around it still does.
   * @param {Element} element
   */
  #forget(element) {
    const state = this.states.get(element);
    if (!state) return;
    if (state.keys === undefined) state.keys = null;
    if (state.pointer === undefined) state.pointer = null;
    this.waiting.delete(element);
  }

  /**
   * By what a user reaches the target of an act: 'pointer', 'keys', or ''. A reader of the screen clicks without a pointer, and so does a key.
   * @param {Event} event
   * @param {Target} target
   * @returns {'pointer'|'keys'|''}
   */
  #wayOf(event, target) {
    if (!isElement(target) || !this.recording.steering.isTrusted(event) || fits(HAS_NO_BOX, target.localName)) return '';
    if (fits(BY_POINTER, event.type)) return event.type === 'click' && /** @type {UIEvent} */ (event).detail === 0 ? '' : 'pointer';
    if (!BY_KEYS.has(event.type) || target.localName === 'body') return '';
    return target.localName === 'input' && fits(ASKS_BY_WINDOW, /** @type {HTMLInputElement} */ (target).type) ? '' : 'keys';
  }
}

export { Reach };
