// Handlers of `on..` properties and `on..` attributes (inline handlers, `onclick`): a target has at most one of each type.

import { each, joined, keep, keysOf, mapped } from '../core/lists.js';
import { markIn } from '../core/marks.js';
import { replaceProperty } from '../core/replacing.js';
import { settings } from '../core/settings.js';
import { fits, sliceOf } from '../core/strings.js';
import { JSON, Map, Object, Set, WeakMap, apply } from '../core/taken.js';

/** Events whose `on..` attribute at the body is a handler of the window. */
const OF_WINDOW = new Set(['load', 'error', 'blur', 'focus', 'resize', 'scroll', 'hashchange', 'popstate', 'beforeunload', 'unload', 'message',
  'messageerror', 'offline', 'online', 'pagehide', 'pageshow', 'storage', 'afterprint', 'beforeprint', 'languagechange', 'rejectionhandled',
  'unhandledrejection']);
/** The addresses in attributes that can run later. */
const ADDRESSES = new Set(['href', 'xlink:href', 'action', 'formaction']);
const HANDLER_NAMES = new Set(settings.handlerNames);
const MARKED = /^(\v|\/\*\v\f<\*\/);?__er\.handlerBegins\(/;

/** @typedef {import('../types').Target} Target */
/** @typedef {import('../types').Method} Method */

/** One for each document: `page.onHandlers`. */
class OnHandlers {
  /** @param {import('../types').Page} page */
  constructor(page) {
    this.page = page;
    this.recording = page.recording;
    this.natives = page.natives;
    this.handlers = page.handlers;
    /**
     * By target and type: the handler of an attribute, and its text with marks.
     * @type {WeakMap<Target, Map<string, {handler: number, text: string}>>}
     */
    this.ofAttributes = new WeakMap();
    /**
     * By target and type: the handlers that `on..` properties have.
     * @type {WeakMap<Target, Map<string, number>>}
     */
    this.ofProperties = new WeakMap();
    /**
     * By the function that the browser has: the page's.
     * @type {WeakMap<Function, Function>}
     */
    this.originals = new WeakMap();
  }

  /** Hooks all properties `on..` of the window and of what has handlers. One call per document, before its code runs. */
  start() {
    const { window } = this.page;
    const accessors = this.#makerOfAccessors();
    const owners = mapped(keep(settings.handlerOwners, (name) => window[name]), (name) => window[name].prototype);
    each(joined([window], owners), (owner) => {
      const names = keep(Object.getOwnPropertyNames(owner), (name) => fits(/^on[a-z]/, name));
      each(names, (name) => replaceProperty(owner, name, ({ get, set }) => accessors(owner, name, get, set)));
    });
  }

  /**
   * The target whose handler an `on..` property or attribute is.
   * @param {Target} target
   * @param {string} type
   * @returns {Target}
   */
  #slotTarget(target, type) {
    const isBody = target.nodeType === 1 && (target.localName === 'body' || target.localName === 'frameset');
    return isBody && OF_WINDOW.has(type) ? this.page.window : target;
  }

  // ---- properties

  /**
   * The number of the handler in an `on..` property. Called by handlers.js.
   * @param {Target} target
   * @param {string} type
   */
  ofProperty(target, type) {
    return this.ofProperties.get(target)?.get(type);
  }

  /**
   * Hooks `on..` properties: a read and a write of the slot; the page reads back what it wrote. A window has hundreds of them: what their hooks share is in one
   * closure, and each has little of its own.
   */
  #makerOfAccessors() {
    const onHandlers = this;
    const { handlers, recording, page: { window } } = this;
    /**
     * @param {object} owner
     * @param {string} name
     * @param {Method} get the browser's
     * @param {Method} set
     * @returns {import('../types').Accessors}
     */
    return (owner, name, get, set) => ({
      get() {
        const target = this ?? window;
        const value = apply(get, target, []);
        const type = sliceOf(name, 2);
        if (target !== owner || owner === window) recording.access('r', handlers.slot(onHandlers.#slotTarget(target, type), type));
        return (value && onHandlers.originals.get(value)) || value;
      },
      set(value) {
        const target = this ?? window;
        apply(set, target, [recording.isOver ? value : onHandlers.#assign(target, sliceOf(name, 2), value)]);
      },
    });
  }

  /**
   * What an assignment to an `on..` property stores.
   * @param {Target} target
   * @param {string} type
   * @param {unknown} value
   */
  #assign(target, type, value) {
    const owner = this.#slotTarget(target, type);
    this.#attributesOf(owner).delete(type);
    const properties = this.ofProperties.get(owner) || new Map();
    this.ofProperties.set(owner, properties);
    properties.delete(type);
    if (typeof value !== 'function') {
      this.recording.access('w', this.handlers.slot(owner, type));
      return value;
    }
    if (type === 'message') this.page.messages.noteStart(owner);
    const handler = this.handlers.register(owner, type, value, false);
    properties.set(type, handler);
    const wrapped = this.#wrap(handler, value);
    this.originals.set(wrapped, value);
    return wrapped;
  }

  /**
   * The function that the browser gets in the place of a page's handler.
   * @param {number} handler
   * @param {Function} value
   * @returns {Method}
   */
  #wrap(handler, value) {
    const { dispatches, window } = this.page;
    return function wrapped(event) {
      const current = event && event.currentTarget !== undefined ? event : window.event;
      return dispatches.runHandler(handler, current, current ? current.currentTarget : this, () => apply(value, this, arguments));
    };
  }

  // ---- attributes

  /**
   * Registers the handlers in the attributes of a new element. Called by page/document/made.js and page/document/tree.js.
   * @param {Element} element
   */
  readAttributes(element) {
    const { getAttribute, getAttributeNames } = this.natives;
    each(apply(getAttributeNames, element, []), (name) => {
      if (this.isHandler(name)) this.registerAttribute(element, sliceOf(name, 2), apply(getAttribute, element, [name]) || '');
      else if (ADDRESSES.has(name)) this.page.addresses.mark(element, name);
    });
  }

  /**
   * Whether an attribute of a name is a handler. Called by page/document/attributes.js.
   * @param {string} name
   */
  isHandler(name) {
    return HANDLER_NAMES.has(name);
  }

  /**
   * The handlers in the attributes of a target, by type.
   * @param {Target} owner
   */
  #attributesOf(owner) {
    const known = this.ofAttributes.get(owner) || new Map();
    this.ofAttributes.set(owner, known);
    return known;
  }

  /**
   * Registers a handler whose text is in an attribute, as the parser or a script put it there. Called by page/document/attributes.js.
   * @param {Element} element
   * @param {string} type
   * @param {string} text
   */
  registerAttribute(element, type, text) {
    const { handlers, recording } = this;
    const owner = this.#slotTarget(element, type);
    const known = this.#attributesOf(owner).get(type);
    if (known && known.text === text) return;
    const handler = recording.next('handler');
    const marked = fits(MARKED, text) ? text : this.#markText(type, text);
    if (marked !== text) recording.log.miss('handler attributes that scripts set, without what they read');
    this.#attributesOf(owner).set(type, { handler, text: marked });
    recording.log.line(`on ${handler}`);
    recording.accessNow('w', handlers.slot(owner, type), '');
    handlers.nameHandler(handler, owner, type);
    this.page.capturing.capture(type);
    if (marked !== text) apply(this.natives.setAttribute, element, [`on${type}`, marked]);
  }

  /**
   * A script has called what can change or remove a handler attribute. A removal also removes the handler of the property. Called by
   * page/document/attributes.js.
   * @param {Element} element
   * @param {string} type
   * @param {string|null} before
   * @param {string|null} now
   */
  changeAttribute(element, type, before, now) {
    if (before === now) return;
    const { handlers, page, recording } = this;
    page.elements.declaredNumber(element);
    recording.finishReturned();
    if (now === null) {
      this.#forget(this.#slotTarget(element, type), type);
      recording.access('w', handlers.slot(this.#slotTarget(element, type), type));
    } else this.registerAttribute(element, type, now);
  }

  /**
   * An `on..` handler of a type is gone.
   * @param {Target} owner
   * @param {string} type
   */
  #forget(owner, type) {
    this.ofAttributes.get(owner)?.delete(type);
    this.ofProperties.get(owner)?.delete(type);
  }

  /**
   * `document.open` has removed all handlers of a target.
   * @param {Target} owner
   */
  forgetAll(owner) {
    const types = joined(keysOf(this.#attributesOf(owner)), keysOf(this.ofProperties.get(owner) || new Map()));
    each(types, (type) => {
      this.#forget(owner, type);
      this.recording.access('w', this.handlers.slot(owner, type));
    });
  }

  /**
   * @param {string} type
   * @param {string} text
   */
  #markText(type, text) {
    return markIn(text, `__er.handlerBegins(this,event,${JSON.stringify(type)});try{`) + text + markIn(text, '\n}finally{__er.handlerEnds()}');
  }

  /**
   * The handler of an attribute begins to run; its text calls this. Called by page/helpers/runs.js.
   * @param {Target} element
   * @param {Event|undefined} event
   * @param {string} type
   */
  attributeBegins(element, event, type) {
    const current = event && event.type ? event : this.page.window.event;
    const owner = this.#slotTarget(element, type);
    let found = this.#attributesOf(owner).get(type);
    if (!found) {
      found = { handler: this.recording.next('handler'), text: '' };
      this.#attributesOf(owner).set(type, found);
      this.recording.log.line(`early on ${found.handler}`);
    }
    this.recording.unmarked.noteAttribute(found.text);
    return this.page.dispatches.handlerBegins(found.handler, current, (current && current.currentTarget) || element, 'attribute');
  }
}

export { OnHandlers };
