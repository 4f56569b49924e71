// `javascript:` addresses: a click at such a link, or a form with such an address, requests a run of its code, which comes after the event's close.

import { findItem, takeFirst } from '../core/lists.js';
import { markIn } from '../core/marks.js';
import { settings } from '../core/settings.js';
import { PATTERNS, fits } from '../core/strings.js';
import { apply, decodeURIComponent, encodeURIComponent } from '../core/taken.js';
import { isElement } from '../core/things.js';

const IS_MARKED = /^(\/\*)?\v/;

/** One for each document: `page.addresses`. */
class Addresses {
  /** @param {import('../types').Page} page */
  constructor(page) {
    this.page = page;
    this.recording = page.recording;
    /**
     * The intervals of events whose code has not run.
     * @type {number[]}
     */
    this.asked = [];
  }

  /**
   * The code of an address in an attribute, or nothing.
   * @param {Element} element
   * @param {string} name
   */
  #codeOf(element, name) {
    return settings.codeOfAddress(apply(this.page.natives.getAttribute, element, [name]) || '', decodeURIComponent, PATTERNS);
  }

  /**
   * A link that a script made gets the same marks as one in the page's text. Called by page/events/on-handlers.js.
   * @param {Element} element
   * @param {string} name of the attribute
   */
  mark(element, name) {
    const code = this.#codeOf(element, name);
    if (!code || fits(IS_MARKED, code)) return;
    const marked = markIn(code, '__er.addressBegins();try{') + code + markIn(code, '\n}finally{__er.addressEnds()}');
    apply(this.page.natives.setAttribute, element, [name, `javascript:${encodeURIComponent(marked)}`]);
  }

  /**
   * The element of a path with the address that an event can run, and the address's attribute.
   * @param {Event & {submitter?: Element|null}} event
   * @param {import('../types').Target} target
   * @param {EventTarget[]} path
   * @returns {{element: Element, name: string}|null}
   */
  #find({ type, submitter }, target, path) {
    if (type === 'submit' && submitter && this.#codeOf(submitter, 'formaction')) return { element: submitter, name: 'formaction' };
    if (type === 'submit') return isElement(target) && this.#codeOf(target, 'action') ? { element: target, name: 'action' } : null;
    const isLink = (/** @type {unknown} */ node) => isElement(node) && node.localName === 'a' && (this.#codeOf(node, 'href') || this.#codeOf(node, 'xlink:href'));
    const link = /** @type {Element|undefined} */ (findItem(path, isLink));
    return link ? { element: link, name: this.#codeOf(link, 'href') ? 'href' : 'xlink:href' } : null;
  }

  /**
   * A click or a submit begins: the browser may run a `javascript:` address after it. Called by page/events/dispatches.js.
   * @param {import('../events/dispatches.js').EventDispatch} dispatch
   * @param {EventTarget[]} path
   */
  watch(dispatch, path) {
    const { event, target } = dispatch;
    if (event.type !== 'click' && event.type !== 'submit') return;
    const found = this.#find(event, target, path);
    if (!found) return;
    this.mark(found.element, found.name);
    dispatch.whenClosed = () => {
      if (event.defaultPrevented) return;
      const { recording } = this;
      const interval = recording.next('interval');
      recording.log.line(`every ${interval} 0`);
      recording.log.name('interval', interval, { why: 'a javascript: address' });
      this.asked[this.asked.length] = interval;
    };
  }

  /** Called by the marks at the start of an address's code. */
  begins() {
    const { recording } = this;
    if (recording.isOver) return;
    recording.startTask();
    recording.unmarked.noteAnywhere();
    let interval = takeFirst(this.asked);
    if (!interval) {
      interval = recording.next('interval');
      recording.log.line(`early every ${interval} 0`);
    }
    recording.begin(`tick ${interval}`, 'tick');
    recording.enter('callback');
  }

  /** Called by the marks at the end of an address's code. */
  ends() {
    if (!this.recording.isOver && this.recording.contexts.length) this.recording.leave();
  }
}

export { Addresses };
