// Handlers: their slots, and listeners. A registration is a write of a slot of its target. `addEventListener`, `removeEventListener`, `once`, `signal`: each
// listener is wrapped.

import { each, findItem, keysOf, valuesOf } from '../core/lists.js';
import { replaceMethod } from '../core/replacing.js';
import { hasEnd, sliceOf } from '../core/strings.js';
import { Map, String, WeakMap, apply } from '../core/taken.js';
import { isThing } from '../core/things.js';
import { spellName } from '../log/spelling.js';

/** @typedef {import('../types').Target} Target */
/**
 * A listener as the page gives it: a function, or an object with `handleEvent`.
 * @typedef {Function|{handleEvent: Function}} Listener
 */
/**
 * A listener of one target, type and phase: what the browser has in its place, also after a removal, so that the browser knows it again; the number of
 * its handler, 0 before the first registration; whether a run removes it; and the number of the next registration, or 0.
 * @typedef {{handler: number, wrapped: import('../types').Method, isOnce: boolean, next: number}} Registration
 */
/**
 * The listeners of one target, type and phase: those that are registered, and all that once were.
 * @typedef {{now: Map<Listener, Registration>, ever: WeakMap<Listener, Registration>}} Registered
 */

/** One for each document: `page.handlers`. */
class Handlers {
  /** @param {import('../types').Page} page */
  constructor(page) {
    this.page = page;
    this.recording = page.recording;
    this.natives = page.natives;
    /**
     * By target, and by type and phase.
     * @type {WeakMap<EventTarget, Map<string, Registered>>}
     */
    this.listeners = new WeakMap();
  }

  /** Hooks `addEventListener` and `removeEventListener`: the browser gets wrapped listeners. */
  start() {
    const handlers = this;
    const { EventTarget, window } = this.page;
    replaceMethod(EventTarget.prototype, 'addEventListener', (native) => function addEventListener(type, listener, options) {
      const target = this ?? window;
      if (handlers.recording.isOver || !isThing(listener)) return apply(native, target, [type, listener, options]);
      return apply(native, target, [type, handlers.#wrapListener(target, String(type), /** @type {Listener} */ (listener), options), options]);
    });
    replaceMethod(EventTarget.prototype, 'removeEventListener', (native) => function removeEventListener(type, listener, options) {
      const target = this ?? window;
      return apply(native, target, [type, handlers.#unwrapListener(target, String(type), listener, options), options]);
    });
  }

  // ---- slots

  /**
   * Each listener has a slot of its own; the handler of a property or an attribute has the one named by the type. Called by on-handlers.js.
   * @param {Target} target
   * @param {string} type
   * @param {number} [handler]
   */
  slot(target, type, handler) {
    const name = handler === undefined ? type : `${type}/${handler}`;
    return `slot ${this.page.elements.number(target)} ${spellName(name)}`;
  }

  /**
   * Records a registration.
   * @param {Target} target
   * @param {string} type
   * @param {unknown} given the function, as the page gives it
   * @param {boolean} isListener
   * @param {number} [handler] its number, if it has one already
   * @returns {number} the number of the handler
   */
  register(target, type, given, isListener, handler = this.recording.next('handler')) {
    const place = this.recording.noteAsking(`on ${handler}`);
    this.recording.steering.watch(target, type);
    this.page.elements.declaredNumber(target);
    if (!this.page.guards.isToCome(target, type)) this.recording.access('w', this.slot(target, type, isListener ? handler : undefined), place);
    this.nameHandler(handler, target, type, typeof given === 'function' ? given.name : undefined);
    this.page.capturing.capture(type);
    if (this.recording.isRunning()) this.page.dispatches.registrars.set(handler, this.recording.running);
    return handler;
  }

  /**
   * Writes what OUT.names.json has of a handler. Called by on-handlers.js.
   * @param {number} handler
   * @param {Target} target
   * @param {string} type
   * @param {string} [functionName]
   */
  nameHandler(handler, target, type, functionName) {
    this.recording.log.name('handler', handler, {
      type, target: this.page.elements.number(target), function: functionName || undefined,
    });
  }

  /**
   * Whether a target has a handler of a type now that was registered in an event. Called by page/reach/controls.js.
   * @param {Target} target
   * @param {string} type
   * @param {import('../types').TraceEvent} event
   */
  hasOneOf(target, type, event) {
    const { dispatches: { registrars }, onHandlers } = this.page;
    const isOfIt = (/** @type {number|undefined} */ handler) => handler !== undefined && registrars.get(handler) === event;
    const hasListener = (/** @type {boolean} */ isCapture) => !!findItem(valuesOf(this.#registrations(target, type, isCapture).now), ({ handler }) => isOfIt(handler));
    return isOfIt(onHandlers.ofProperty(target, type)) || hasListener(false) || hasListener(true);
  }

  // ---- addEventListener

  /**
   * The registrations of a target, a type and a phase.
   * @param {EventTarget} target
   * @param {string} type
   * @param {boolean} isCapture
   * @returns {Registered}
   */
  #registrations(target, type, isCapture) {
    const key = `${type}|${isCapture}`;
    const byKey = this.listeners.get(target) || new Map();
    this.listeners.set(target, byKey);
    if (!byKey.has(key)) byKey.set(key, { now: new Map(), ever: new WeakMap() });
    return byKey.get(key);
  }

  /**
   * The same listener added twice is one.
   * @param {EventTarget} target
   * @param {string} type
   * @param {Listener} listener
   * @param {AddEventListenerOptions|undefined} options
   */
  #wrapListener(target, type, listener, options) {
    if (this.#isAborted(options)) return listener; // the browser does not add it
    const isCapture = isCapturing(options);
    const registered = this.#registrations(target, type, isCapture);
    const known = registered.now.get(listener);
    if (known) return known.wrapped;
    const registration = this.#registrationOf(target, type, listener, registered);
    const { next } = registration;
    registration.next = 0;
    registration.handler = this.register(target, type, typeof listener === 'function' ? listener : listener.handleEvent, true, next || undefined);
    if (isCapture) this.#noteCapturing(registration.handler);
    registration.isOnce = typeof options === 'object' && options !== null && !!options.once;
    registered.now.set(listener, registration);
    this.#watchSignal(target, type, options, registered, listener);
    return registration.wrapped;
  }

  /** @param {number} handler */
  #noteCapturing(handler) {
    const { capturers } = this.page.dispatches;
    if (!capturers.has(handler)) this.recording.log.line(`captures ${handler}`);
    capturers.add(handler);
  }

  /**
   * The registration of a listener at a target: the former one, if the listener was registered there before, so that its slot stays the same.
   * @param {EventTarget} target
   * @param {string} type
   * @param {Listener} listener
   * @param {Registered} registered
   * @returns {Registration}
   */
  #registrationOf(target, type, listener, { now, ever }) {
    const former = ever.get(listener);
    if (former) return former;
    /** @type {Registration} */
    const registration = { handler: 0, isOnce: false, next: 0, wrapped: this.#wrapFunction(target, type, listener, now, () => registration) };
    ever.set(listener, registration);
    return registration;
  }

  /**
   * The function that the browser calls in place of a listener. With `{ once: true }` its run also removes it: a write of its slot.
   * @param {EventTarget} target
   * @param {string} type
   * @param {Listener} listener
   * @param {Map<Listener, Registration>} now those that are registered
   * @param {() => Registration} find
   * @returns {import('../types').Method}
   */
  #wrapFunction(target, type, listener, now, find) {
    const handlers = this;
    return function wrapped(event) {
      const { handler, isOnce } = find();
      return handlers.page.dispatches.runHandler(handler, event, event.currentTarget, () => {
        if (isOnce) {
          now.delete(listener);
          handlers.recording.access('w', handlers.slot(target, type, handler), '');
        }
        return typeof listener === 'function' ? apply(listener, this, [event]) : listener.handleEvent(event);
      });
    };
  }

  /**
   * Whether the signal of a listener has been aborted.
   * @param {AddEventListenerOptions|undefined} options
   */
  #isAborted(options) {
    const signal = typeof options === 'object' && options !== null ? options.signal : null;
    try {
      return isThing(signal) && apply(this.natives.aborted, signal, []);
    } catch { // no signal: the browser throws an error
      return false;
    }
  }

  /**
   * With `{ signal }`, an abort removes the listener: a write of its slot. Chromium also removes one that was registered anew meanwhile.
   * @param {EventTarget} target
   * @param {string} type
   * @param {AddEventListenerOptions|undefined} options
   * @param {Registered} registered
   * @param {Listener} listener
   */
  #watchSignal(target, type, options, { now }, listener) {
    const signal = typeof options === 'object' && options !== null ? options.signal : null;
    if (!signal) return;
    apply(this.natives.addEventListener, signal, ['abort', () => {
      const found = now.get(listener);
      if (!found) return;
      now.delete(listener);
      this.recording.access('w', this.slot(target, type, found.handler));
    }, { once: true }]);
  }

  /**
   * `document.open` has removed all listeners of a target.
   * @param {Target} target
   */
  forgetAll(target) {
    const byKey = this.listeners.get(target) || new Map();
    each(keysOf(byKey), (key) => {
      const { now } = byKey.get(key);
      const type = sliceOf(key, 0, hasEnd(key, '|true') ? -5 : -6);
      each(valuesOf(now), ({ handler }) => this.recording.access('w', this.slot(target, type, handler)));
      now.clear();
    });
  }

  /**
   * What `removeEventListener` removes, a listener's function. The removal is a write of its slot. One that finds nothing reads the slots of the last
   * registration and of the next one.
   * @param {EventTarget} target
   * @param {string} type
   * @param {Listener} listener
   * @param {AddEventListenerOptions|undefined} options
   */
  #unwrapListener(target, type, listener, options) {
    const { recording } = this;
    if (!isThing(listener)) return listener;
    const registered = this.#registrations(target, type, isCapturing(options));
    const registration = this.#registrationOf(target, type, listener, registered);
    const { handler, wrapped } = registration;
    if (registered.now.delete(listener)) recording.access('w', this.slot(target, type, handler));
    else if (!recording.isOver && recording.isRunning()) {
      registration.next = registration.next || recording.next('handler');
      if (handler) recording.access('r', this.slot(target, type, handler));
      recording.access('r', this.slot(target, type, registration.next));
    }
    return wrapped;
  }
}

/** @param {boolean|AddEventListenerOptions|undefined} options */
const isCapturing = (options) => (typeof options === 'object' && options ? !!options.capture : !!options);

export { Handlers };
