// Form controls that come into the page disabled. No act of a user reaches one before code enables it: each act is after the code that did so first,
// and after what showed it (reach.js). `button.disabled = false`.

import { each, findItem, hasItem, joined, mapped } from '../core/lists.js';
import { fits } from '../core/strings.js';
import { Map, Set, WeakMap, apply } from '../core/taken.js';

const CONTROLS = 'button,input,select,textarea';
const IS_CONTROL = /^(button|input|select|textarea)$/;
/** Disabled by its own attribute, or by that of a fieldset around it, which does not count in a legend. */
const IS_KEPT = ':disabled:is([disabled], :not(legend *))';
/** The events that a browser does not dispatch at a disabled control. Pointers, the wheel, the right button, what is pasted and a selection do reach one. */
const ACTS = new Set(['mousedown', 'mouseup', 'click', 'dblclick', 'keydown', 'keypress', 'keyup', 'beforeinput', 'textInput', 'input', 'change', 'focus',
  'focusin', 'blur', 'focusout']);
const ENABLED = 'the code that enabled it';
const REACHED = 'the code that showed it';

/** @typedef {import('../types').Moment} Moment */
/** @typedef {import('../types').Target} Target */
/** @typedef {import('../document/tree.js').Maker} Maker */
/** @typedef {import('../events/dispatches.js').EventDispatch} EventDispatch */

/** One for each document: `page.controls`. */
class Controls {
  /** @param {import('../types').Page} page */
  constructor(page) {
    this.page = page;
    this.recording = page.recording;
    this.natives = page.natives;
    /**
     * By target, and by what its acts come after: the number of the element that stands for it.
     * @type {WeakMap<EventTarget, Map<string, number>>}
     */
    this.standIns = new WeakMap();
  }

  /**
   * What is known of a control that was disabled ever since it came: what enabled it first, once that has been. Null of one that a user might have
   * reached before. All documents of a recording share this: a control can go to another one.
   * @param {Element} control
   * @returns {{moment: Moment|null}|null|undefined}
   */
  #known(control) {
    return this.recording.controls.get(control);
  }

  /**
   * A user might have reached a control before: its acts get no order.
   * @param {Element} control
   */
  #forget(control) {
    this.recording.controls.set(control, null);
  }

  /**
   * Whether a control matches a selector, by the browser's own function.
   * @param {Element} control
   * @param {string} selector
   */
  #is(control, selector) {
    return apply(this.natives.matches, control, [selector]);
  }

  // ---- what enables a control

  /**
   * An element has come into the document, or to another place in it. Called by page/document/tree.js.
   * @param {Element} element
   * @param {Maker} maker
   */
  noteAdded(element, maker) {
    if (!fits(IS_CONTROL, element.localName)) return;
    if (this.#known(element) !== undefined) this.#look(element, maker);
    else this.recording.controls.set(element, this.#is(element, IS_KEPT) ? { moment: null } : null);
  }

  /**
   * The attribute `disabled` of an element has come, gone or been set again. Called by page/document/tree.js.
   * @param {Element} element
   * @param {string|null} oldValue
   * @param {Maker} maker
   */
  noteAttribute(element, oldValue, maker) {
    if (element.localName !== 'fieldset') {
      if (fits(IS_CONTROL, element.localName)) this.#noteChange(element, oldValue === null, maker);
      return;
    }
    each(apply(this.natives.querySelectorAll, element, [CONTROLS]), (control) => {
      this.#noteChange(control, oldValue === null && !this.page.elements.has(control, 'disabled'), maker);
    });
  }

  /**
   * `wasEnabled` just before the change.
   * @param {Element} control
   * @param {boolean} wasEnabled
   * @param {Maker} maker
   */
  #noteChange(control, wasEnabled, maker) {
    if (wasEnabled && this.#isWaiting(control)) this.#forget(control);
    else this.#look(control, maker);
  }

  /**
   * Whether a control came disabled and nothing has enabled it.
   * @param {Element} control
   */
  #isWaiting(control) {
    const known = this.#known(control);
    return !!known && !known.moment;
  }

  /**
   * Looks whether a control that came disabled is enabled now, and by whom.
   * @param {Element} control
   * @param {Maker} maker
   */
  #look(control, maker) {
    if (!this.#isWaiting(control) || this.#is(control, IS_KEPT)) return;
    if (maker !== 'script' || this.#is(control, ':disabled')) this.#forget(control);
    else this.recording.controls.set(control, { moment: this.recording.lastMoment() });
  }

  // ---- acts

  /**
   * The code that has enabled the target of an act, or null.
   * @param {Event} event
   * @param {EventTarget} target
   */
  #reached(event, target) {
    const known = ACTS.has(event.type) && this.recording.steering.isTrusted(event) && this.#known(/** @type {Element} */ (target));
    if (known && !known.moment) this.#forget(/** @type {Element} */ (target)); // what enabled it was not seen
    return known ? known.moment : null;
  }

  /**
   * The number of the element that stands for the target of an act, after what enabled and what showed it, or 0. The dispatch begins after these. Called by
   * page/events/dispatches.js.
   * @param {EventDispatch} dispatch
   */
  standIn(dispatch) {
    const { event, target } = dispatch;
    const enabled = this.#reached(event, target);
    const moments = joined(enabled ? [enabled] : [], this.page.reach.momentsOf(event, target));
    if (!moments.length) return 0;
    dispatch.comesAfter = mapped(moments, ({ event: cause }) => cause);
    return this.#standInAfter(target, moments, moments.length === (enabled ? 1 : 0));
  }

  /**
   * One element stands for a target in all acts that are after the same.
   * @param {Target} target
   * @param {Moment[]} moments
   * @param {boolean} isEnabling
   */
  #standInAfter(target, moments, isEnabling) {
    const ofTarget = this.standIns.get(target) || new Map();
    this.standIns.set(target, ofTarget);
    let key = '';
    each(moments, ({ action }) => { key += `${action} `; });
    if (!ofTarget.has(key)) ofTarget.set(key, this.#makeStandIn(target, moments, isEnabling));
    return ofTarget.get(key);
  }

  /**
   * It is made after what made the target and what enabled or showed it. No rule is known to put the one before the other, so an event of its own comes after all.
   * @param {Target} target
   * @param {Moment[]} moments
   * @param {boolean} isEnabling
   */
  #makeStandIn(target, moments, isEnabling) {
    const { recording, page } = this;
    const why = isEnabling ? ENABLED : REACHED;
    const number = page.elements.declaredNumber(target);
    const standIn = recording.next('element');
    const dispatch = page.dispatches.beginPlain(number, isEnabling ? 'enabling' : 'showing');
    if (page.joins.tell(dispatch, moments, why).length > 1) recording.close(dispatch); // its close is after all handlers
    recording.log.line(`new ${page.numberOfDocumentOf(target)} ${standIn} plain`);
    recording.log.name('element', standIn, { standsFor: number, why });
    recording.finishTop();
    return standIn;
  }

  /**
   * Called for an act that comes of one at another target, and is written in the close of that, so that all after it there is after what it is after. This
   * may not be said of the code that enabled the control, except if a handler of this code runs, which shows it. Inside of the dispatch it is not said again.
   * @param {EventDispatch} dispatch
   */
  noteEnabling(dispatch) {
    const { event, target } = dispatch;
    const moment = this.#reached(event, target);
    if (!moment || this.#isTold(moment) || !this.page.handlers.hasOneOf(target, event.type, moment.event)) return;
    this.page.joins.here([moment], ENABLED);
    dispatch.comesAfter = [moment.event];
  }

  /**
   * Whether an open dispatch comes after a moment.
   * @param {Moment} moment
   */
  #isTold({ event }) {
    return !!findItem(this.recording.dispatches, ({ comesAfter }) => comesAfter && hasItem(comesAfter, event));
  }
}

export { Controls };
