// Calls and changes that queue an event: what opens and closes, the full screen, scrolling, selections, storage of another frame. `scrollTo`, `showModal`,
// popovers, `<details>`, `requestFullscreen`, `select()`, `localStorage.setItem` in another frame.

import { each, findItem, keep, mapped } from '../core/lists.js';
import { replaceMethod, replaceProperty } from '../core/replacing.js';
import { fits } from '../core/strings.js';
import { apply } from '../core/taken.js';
import { isElement } from '../core/things.js';

/** One for each document: `page.causes`. */
class Causes {
  /** @param {import('../types').Page} page */
  constructor(page) {
    this.page = page;
    this.recording = page.recording;
    this.queued = page.queued;
  }

  start() {
    this.#watchToggles(this.page.window);
    this.#watchFullScreen(this.page.window);
    this.#watchScrolling(this.page.window);
    this.#watchSelection(this.page.window);
  }

  // ---- what opens and closes

  /**
   * The toggle events of one element are one until it comes.
   * @param {import('../types').PageWindow} window
   */
  #watchToggles(window) {
    const { matches, hasAttribute } = this.page.natives;
    const isShown = (/** @type {Element} */ element) => apply(matches, element, [':popover-open']);
    const isOpen = (/** @type {Element} */ dialog) => apply(hasAttribute, dialog, ['open']);
    const { HTMLElement, HTMLDialogElement } = window;
    each(['showPopover', 'hidePopover', 'togglePopover'], (name) => this.#replaceOpening(HTMLElement.prototype, name, ['toggle'], isShown));
    each(['show', 'showModal'], (name) => this.#replaceOpening(HTMLDialogElement.prototype, name, ['toggle'], isOpen));
    each(['close', 'requestClose'], (name) => this.#replaceOpening(HTMLDialogElement.prototype, name, ['toggle', 'close'], isOpen));
  }

  /**
   * Hooks a call that opens or closes an element: if it does, it queues events.
   * @param {object} owner
   * @param {string} name
   * @param {string[]} types what the call queues
   * @param {(element: Element) => boolean} isOpen
   */
  #replaceOpening(owner, name, types, isOpen) {
    const causes = this;
    const { queued, recording } = this;
    replaceMethod(owner, name, (native) => function change() {
      const before = isOpen(this);
      const others = causes.#openPopovers(this);
      const result = apply(native, this, arguments);
      causes.#noteClosed(others);
      if (isOpen(this) === before) return result;
      // the browser merges two `toggle` events, and no others
      each(types, (type) => (type === 'toggle' ? queued.noteAgain(this, type, recording.moment()) : queued.note(this, type, recording.moment())));
      return result;
    });
  }

  /**
   * The open popovers, except an element that opens or closes: the browser can close them with it.
   * @param {Element} except
   */
  #openPopovers(except) {
    const { recording, page: { document, natives } } = this;
    const root = document.documentElement;
    return recording.isOver || !root ? [] : keep(apply(natives.querySelectorAll, root, [':popover-open']), (one) => one !== except);
  }

  /**
   * The running code has opened or closed something: with it some popovers might have closed.
   * @param {Element[]} popovers those that were open
   */
  #noteClosed(popovers) {
    const { queued, recording, page: { natives } } = this;
    each(popovers, (one) => { if (!apply(natives.matches, one, [':popover-open'])) queued.noteAgain(one, 'toggle', recording.moment()); });
  }

  /**
   * The attribute `open` of a details element has come or gone. Called by page/document/tree.js.
   * @param {Element} element
   */
  noteOpen(element) {
    if (element.localName === 'details') this.queued.noteAgain(element, 'toggle', this.recording.lastMoment());
  }

  // ---- the full screen

  /**
   * An element fills the screen, or cannot, in a later frame.
   * @param {import('../types').PageWindow} window
   */
  #watchFullScreen({ Element, Document }) {
    const { queued, recording, page } = this;
    const isOfScreen = (/** @type {Event} */ { type }) => fits(/fullscreen(change|error)$/, type);
    /** @type {(owner: object, names: string[], elementOf: (called: Element) => Element|null) => void} */
    const replace = (owner, names, elementOf) => each(names, (name) => replaceMethod(owner, name, (native) => function change() {
      const element = elementOf(this);
      if (element) queued.note(element, null, recording.moment(), isOfScreen);
      return apply(native, this, arguments);
    }));
    const shown = () => page.document.fullscreenElement;
    replace(Element.prototype, ['requestFullscreen', 'webkitRequestFullscreen', 'webkitRequestFullScreen'], (element) => (element === shown() ? null : element));
    replace(Document.prototype, ['exitFullscreen', 'webkitExitFullscreen', 'webkitCancelFullScreen'], shown);
  }

  // ---- scrolling

  /**
   * Hooks the calls and properties that scroll.
   * @param {import('../types').PageWindow} window
   */
  #watchScrolling(window) {
    const causes = this;
    const { Element } = window;
    const replace = (/** @type {object} */ owner, /** @type {string} */ name) => replaceMethod(owner, name, (native) => function scroll() {
      return causes.#aroundScroll(isElement(this) ? this : null, () => apply(native, this, arguments));
    });
    each(['scroll', 'scrollTo', 'scrollBy', 'scrollIntoView', 'scrollIntoViewIfNeeded'], (name) => replace(Element.prototype, name));
    each(['scroll', 'scrollTo', 'scrollBy'], (name) => replace(window, name));
    each(['scrollTop', 'scrollLeft'], (name) => replaceProperty(Element.prototype, name, (native) => ({
      set(value) {
        causes.#aroundScroll(this, () => apply(native.set, this, [value]));
      },
    })));
  }

  /**
   * What a call moves at once has its events in the next frame. What it moves smoothly is not seen.
   * @template T
   * @param {Element|null} element null: the window is scrolled
   * @param {() => T} call
   */
  #aroundScroll(element, call) {
    const { capturing: { listened }, document, natives } = this.page;
    if (this.recording.isOver || !(listened.has('scroll') || listened.has('scrollend'))) return call();
    const root = document.scrollingElement;
    /** @type {Element[]} */
    const elements = root ? [root] : [];
    for (let one = element; one && one !== root && isElement(one); one = /** @type {Element} */ (apply(natives.parentNode, one, []))) elements[elements.length] = one;
    const before = mapped(elements, (one) => this.#placeOf(one));
    const result = call();
    each(elements, (one, k) => {
      if (this.#placeOf(one) === before[k]) return;
      const target = one === root ? document : one;
      each(['scroll', 'scrollend'], (type) => this.queued.noteOnce(target, type, this.recording.moment()));
    });
    return result;
  }

  // ---- selections

  /**
   * Hooks the calls and properties that select text.
   * @param {import('../types').PageWindow} window
   */
  #watchSelection({ HTMLInputElement, HTMLTextAreaElement, Selection }) {
    const causes = this;
    each([HTMLInputElement.prototype, HTMLTextAreaElement.prototype], (owner) => {
      each(['select', 'setSelectionRange', 'setRangeText'], (name) => replaceMethod(owner, name, (native) => function select() {
        return causes.#aroundSelect(this, () => apply(native, this, arguments));
      }));
      each(['selectionStart', 'selectionEnd'], (name) => replaceProperty(owner, name, (native) => ({
        set(value) {
          causes.#aroundSelect(this, () => apply(native.set, this, [value]));
        },
      })));
    });
    each(['addRange', 'collapse', 'collapseToEnd', 'collapseToStart', 'empty', 'extend', 'modify', 'removeAllRanges', 'removeRange', 'selectAllChildren',
      'setBaseAndExtent', 'setPosition'], (name) => replaceMethod(Selection.prototype, name, (native) => function select() {
      return causes.#aroundSelection(this, () => apply(native, this, arguments));
    }));
  }

  /**
   * The browser queues `select` and `selectionchange` only if the selection of a field changes.
   * @template T
   * @param {HTMLInputElement} field
   * @param {() => T} call
   */
  #aroundSelect(field, call) {
    const before = this.#selectedIn(field);
    const result = call();
    if (this.#selectedIn(field) === before) return result;
    this.queued.noteOnce(field, 'select', this.recording.moment());
    each([field, this.page.document], (target) => this.queued.noteOnce(target, 'selectionchange', this.recording.moment()));
    return result;
  }

  /**
   * The browser queues `selectionchange` only if an end of the selection moves.
   * @template T
   * @param {Selection} selection
   * @param {() => T} call
   */
  #aroundSelection(selection, call) {
    const endsOf = () => mapped(this.page.natives.endsOfSelection, (get) => apply(get, selection, []));
    const before = endsOf();
    const result = call();
    const after = endsOf();
    const isMoved = findItem([0, 1, 2, 3], (k) => before[k] !== after[k]) !== undefined;
    if (isMoved) this.queued.noteOnce(this.page.document, 'selectionchange', this.recording.moment());
    return result;
  }

  /**
   * How far an element is scrolled, as a text to compare.
   * @param {Element} element
   */
  #placeOf(element) {
    const { scrollLeft, scrollTop } = this.page.natives;
    return `${apply(scrollLeft, element, [])} ${apply(scrollTop, element, [])}`;
  }

  /**
   * What is selected in a field, as a text that can be compared.
   * @param {HTMLInputElement|HTMLTextAreaElement} field
   */
  #selectedIn(field) {
    const { HTMLInputElement, HTMLTextAreaElement } = this.page.natives.selected;
    const { start, end } = field.localName === 'textarea' ? HTMLTextAreaElement : HTMLInputElement;
    return `${apply(start, field, [])} ${apply(end, field, [])}`;
  }

  // ---- storage of another frame

  /**
   * The other windows of the origin get an event when a storage changes. Called by page/accesses/fields.js.
   * @param {string} key
   * @param {string|null} value
   */
  noteStorage(key, value) {
    const moment = this.recording.moment();
    if (!moment) return;
    each(this.recording.pages, ({ window, queued, capturing }) => {
      if (window === this.page.window || !capturing.listened.has('storage')) return;
      queued.note(window, 'storage', moment, (event) => event.key === key && event.newValue === value);
    });
  }
}


export { Causes };
