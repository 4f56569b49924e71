// Observers: a mutation observer's callback is a job, those of the others are tasks. Each comes after the call of `observe()`. MutationObserver,
// IntersectionObserver, ResizeObserver, PerformanceObserver; FinalizationRegistry.

import { each, findItem, joined, keep } from '../core/lists.js';
import { putConstructor, replaceMethod } from '../core/replacing.js';
import { Reflect, Set, WeakMap, WeakSet, apply } from '../core/taken.js';
import { isElement } from '../core/things.js';

const OBSERVERS = ['MutationObserver', 'IntersectionObserver', 'ResizeObserver', 'PerformanceObserver', 'ReportingObserver'];
/** Those whose entries are not of one thing for which `observe()` was called. */
const OF_ALL = new Set(['PerformanceObserver', 'ReportingObserver']);

/** @typedef {import('../types').Moment} Moment */
/** @typedef {import('../types').PageWindow} PageWindow */
/**
 * What is known of an observer: its type in the trace, who made it, who called `observe()` for what, and the end of its last call.
 * @typedef {{name: string, handler: number, asked: import('./jobs.js').Asked, type: string, told: {target: any, moment: Moment}[], hold: import('../types').Held|undefined, last?: Moment}} About
 */

/** One for each document: `page.observers`. */
class Observers {
  /** @param {import('../types').Page} page */
  constructor(page) {
    this.page = page;
    this.recording = page.recording;
    /** @type {WeakMap<object, About>} */
    this.known = new WeakMap();
    /**
     * The ends of what mutation observers did after parse steps: it comes before the next script for which the parser waits, and before
     * DOMContentLoaded.
     * @type {Moment[]}
     */
    this.observed = [];
    /**
     * The nodes in slots for which a `slotchange` has come.
     * @type {WeakSet<Node>}
     */
    this.assigned = new WeakSet();
  }

  /** The action that was begun last ends something that comes before the next script for which the parser waits. Called by page/document/loading.js. */
  noteBeforeScript() {
    this.observed[this.observed.length] = this.recording.lastMoment();
  }

  /** The ends of what mutation observers did since the last call. Called by page/document/loading.js and page/scripts/scripts.js. */
  takeObserved() {
    const { observed } = this;
    this.observed = [];
    return observed;
  }

  /** Hooks the constructors of observers, their `observe`, and the registry of finalizers. One call per document, before its code runs. */
  start() {
    const { window } = this.page;
    each(keep(OBSERVERS, (name) => window[name]), (name) => {
      this.#replaceObserver(window, name);
      this.#replaceObserve(window[name].prototype);
    });
    this.#replaceRegistry(window);
  }

  /**
   * Hooks the constructor of an observer: its callback is wrapped.
   * @param {PageWindow} window
   * @param {string} name
   */
  #replaceObserver(window, name) {
    const observers = this;
    const Native = window[name];
    /** @type {(this: unknown, callback: unknown, ...rest: unknown[]) => unknown} */
    const Observer = function Observer(callback, ...rest) {
      if (!new.target) return apply(Native, undefined, [callback]); // which throws
      const about = typeof callback === 'function' && !observers.recording.isOver ? observers.#describe(name, callback) : null;
      const made = Reflect.construct(Native, joined([about ? observers.#wrap(about, /** @type {Function} */ (callback)) : callback], rest), new.target !== Observer ? new.target : Native);
      if (about) observers.known.set(made, about);
      return made;
    };
    putConstructor(window, name, Observer);
  }

  /**
   * What is known of an observer as it is made.
   * @param {string} name
   * @param {Function} callback
   */
  #describe(name, callback) {
    const { jobs } = this.page;
    const handler = jobs.registerJob(callback, name);
    return { name, handler, asked: jobs.ask(null), type: '', told: [], hold: this.recording.steering.asks('on') };
  }

  /**
   * Hooks `observe`: an observer's callback comes after the calls that say what it observes.
   * @param {any} owner its members differ by interface
   */
  #replaceObserve(owner) {
    const observers = this;
    replaceMethod(owner, 'observe', (native) => function observe(target) {
      const about = observers.known.get(this);
      const moment = about && observers.recording.moment();
      if (moment) about.told[about.told.length] = { target, moment };
      return apply(native, this, arguments);
    });
  }

  /**
   * The function that the browser gets in the place of an observer's callback.
   * @param {About} about
   * @param {Function} callback
   * @returns {import('../types').Method}
   */
  #wrap(about, callback) {
    const observers = this;
    const { jobs, dispatches } = this.page;
    return function observed(entries, ...words) {
      const call = () => apply(callback, this, joined([entries], words));
      const { recording } = observers;
      if (recording.isOver) return call();
      const asked = { ...about.asked, others: observers.#toldOf(about, entries), why: 'the call of observe()' };
      if (about.name === 'MutationObserver') {
        return recording.contexts.length || recording.isCheckpoint ? jobs.run(about.handler, asked, call) : observers.#runAfterStep(about, entries, asked, call);
      }
      about.type = about.type || `${about.name}-${recording.next('observer')}`;
      return recording.steering.observed(about.hold, () => jobs.runAsHandler(dispatches.beginPlain(jobs.place, about.type), about.handler, asked, call));
    };
  }

  /**
   * A mutation observer is called while no code runs: because of the parser. It is called after the step of its first entry, and before the next script
   * for which the parser waits. How many more elements are there by then is up to the network.
   * @template T
   * @param {About} about
   * @param {MutationRecord[]} entries
   * @param {import('./jobs.js').Asked} asked
   * @param {() => T} call
   */
  #runAfterStep(about, entries, asked, call) {
    const { recording, page } = this;
    const { tree, elements, dispatches, jobs } = page;
    recording.startTask();
    const { 0: first } = entries;
    const step = tree.steps.get(/** @type {Element} */ (first.addedNodes[0])) || tree.steps.get(/** @type {Element} */ (first.target));
    if (!step) return jobs.run(about.handler, asked, call);
    asked.others = joined(asked.others || [], [about.last || null]);
    const standIn = elements.standInIn(step, first.target, 'the first that it was told of');
    const dispatch = dispatches.beginPlain(standIn, about.name);
    if (tree.isParsing()) dispatch.awaits = page; // load waits for what is added now
    try {
      return jobs.runAsHandler(dispatch, about.handler, asked, call);
    } finally {
      about.last = recording.lastMoment();
      this.noteBeforeScript();
    }
  }

  /**
   * A `slotchange` while no code runs: it comes with the calls of mutation observers. It is after the step of the first node that the slot has got, if that is
   * an element. It is before the next script for which the parser waits, unless the shadow tree could also come later. Called by page/events/dispatches.js.
   * @param {import('../types').NewDispatch} dispatch
   */
  orderSlotChange(dispatch) {
    const { recording, page: { elements, number, tree } } = this;
    const slot = /** @type {HTMLSlotElement} */ (dispatch.target);
    if (!dispatch.event?.isTrusted || slot.localName !== 'slot') return;
    const { 0: first } = this.#takeAssigned(slot);
    if (dispatch.isInline || recording.act || !tree.isParsing()) return;
    const step = first && tree.steps.get(/** @type {Element} */ (first));
    if (step) {
      dispatch.moments = [step];
      dispatch.why = 'the step of its first node';
    }
    const maker = elements.makers.get(slot);
    const isOfParser = first && (step || !isElement(first));
    if (isOfParser && (maker?.blocks === this.page || maker?.parsed === number)) dispatch.whenClosed = () => this.noteBeforeScript();
  }

  /**
   * The nodes that a slot has got since the last call.
   * @param {HTMLSlotElement} slot
   */
  #takeAssigned(slot) {
    const assigned = keep(apply(this.page.natives.assignedNodes, slot, []), (node) => !this.assigned.has(node));
    each(assigned, (node) => this.assigned.add(node));
    return assigned;
  }

  /**
   * Who called `observe()` for what some entries are of.
   * @param {About} about
   * @param {any[]} entries those of an observer: their members differ
   */
  #toldOf({ name, told }, entries) {
    const { contains } = this.page.natives;
    const isOf = (/** @type {any} */ target) => (/** @type {{target: any}} */ { target: of }) => of === target || (name === 'MutationObserver' && apply(contains, target, [of]));
    /** @type {Moment[]} */
    const moments = [];
    each(told, ({ target, moment }) => {
      if (OF_ALL.has(name) || findItem(entries, isOf(target))) moments[moments.length] = moment;
    });
    return moments;
  }

  // ---- what is called when an object is no more

  /**
   * A callback comes after the call that registered what is gone: the registry holds the moment of that beside the page's value.
   * @param {PageWindow} window
   */
  #replaceRegistry(window) {
    const observers = this;
    const Native = window.FinalizationRegistry;
    /** @type {(this: unknown, callback: unknown) => unknown} */
    const FinalizationRegistry = function FinalizationRegistry(callback) {
      if (!new.target) return apply(Native, undefined, [callback]); // which throws
      const isSeen = typeof callback === 'function' && !observers.recording.isOver;
      return Reflect.construct(Native, [isSeen ? observers.#wrapCleanup(callback) : callback], new.target !== FinalizationRegistry ? new.target : Native);
    };
    putConstructor(window, 'FinalizationRegistry', FinalizationRegistry);
    replaceMethod(Native.prototype, 'register', (native) => function register(target, value, ...token) {
      const held = target === value || observers.recording.isOver ? value : new Held(value, observers.recording.moment());
      return apply(native, this, joined([target, held], token));
    });
  }

  /**
   * The callback of a FinalizationRegistry: it comes after the call of `register()`.
   * @param {Function} callback
   * @returns {import('../types').Method}
   */
  #wrapCleanup(callback) {
    const observers = this;
    const about = this.#describe('FinalizationRegistry', callback);
    return function cleanUp(held) {
      const { recording, page: { dispatches, jobs } } = observers;
      const call = () => apply(callback, this, [held instanceof Held ? held.value : held]);
      if (recording.isOver) return call();
      about.type = about.type || `FinalizationRegistry-${recording.next('observer')}`;
      const asked = { ...about.asked, others: [held.moment], why: 'the call of register()' };
      return jobs.runAsHandler(dispatches.beginPlain(jobs.place, about.type), about.handler, asked, call);
    };
  }
}

/** The value that is passed to a registry's callback, and the moment of its registration. */
class Held {
  /**
   * @param {unknown} value
   * @param {Moment|null} moment
   */
  constructor(value, moment) {
    this.value = value;
    this.moment = moment;
  }
}

export { Observers };
