// Steps of the page's address (history): `navigate` comes before each, at once for a change of the fragment (hash), and for a way back when it is made.
// `history.back`, `popstate`, `hashchange`, and `intercept` of the Navigation API.

import { each, findItem, keep, mapped, positionOf } from '../core/lists.js';
import { replaceMethod } from '../core/replacing.js';
import { apply } from '../core/taken.js';
import { isPlainObject } from '../core/things.js';

/** @typedef {import('../types').Moment} Moment */
/** @typedef {import('../types').PageWindow} PageWindow */
/**
 * The event of a step; TypeScript 4.8 has no type of it.
 * @typedef {Event & {navigationType: string, hashChange: boolean, destination: {key: string, url: string, sameDocument: boolean}}} NavigateEvent
 */
/**
 * A call whose step has not come: where it was, unless it can be one of several, and the key of the page's entry if the call says which.
 * @typedef {{moment: Moment|null, key?: string}} Step
 */

/** Whether an event is the end of a step. */
const isEnd = (/** @type {Event} */ { type }) => type === 'navigatesuccess' || type === 'navigateerror';

/** One for each document: `page.navigations`. */
class Navigations {
  /** @param {import('../types').Page} page */
  constructor(page) {
    this.page = page;
    this.recording = page.recording;
    /** The page can put something else in its place. */
    this.navigation = page.window.navigation;
    /** @type {Step[]} */
    this.steps = [];
    /**
     * The end of the last step that has begun.
     * @type {import('./queued.js').Expected|undefined}
     */
    this.ending = undefined;
  }

  start() {
    const { window, natives } = this.page;
    if (!this.navigation) return;
    this.#replaceSteps(window);
    apply(natives.addEventListener, this.navigation, ['navigate', (/** @type {NavigateEvent} */ event) => this.#noteNavigation(event)]);
    this.#replaceIntercept(window.NavigateEvent.prototype);
  }

  /**
   * Hooks the calls that step through the history.
   * @param {PageWindow} window
   */
  #replaceSteps(window) {
    const navigations = this;
    const { navigation, recording } = this;
    each(['back', 'forward', 'go'], (name) => replaceMethod(window.History.prototype, name, (native) => function step(delta) {
      const { canGoBack, canGoForward } = navigation;
      const isForward = name === 'forward' || (name === 'go' && delta > 0);
      const moment = (isForward ? canGoForward : canGoBack) && recording.moment();
      if (moment) navigations.#addStep({ moment });
      return apply(native, this, arguments);
    }));
    each(['back', 'forward', 'traverseTo'], (name) => replaceMethod(window.Navigation.prototype, name, (native) => function step(key) {
      if (this === navigation && !recording.isOver) navigations.#noteStepTo(navigations.#keyOf(name, key));
      return apply(native, this, arguments);
    }));
  }

  #addStep(/** @type {Step} */ step) {
    this.steps[this.steps.length] = step;
  }

  /**
   * The key of the entry to which a call goes, or nothing if it goes nowhere.
   * @param {string} name
   * @param {unknown} given
   * @returns {string|undefined}
   */
  #keyOf(name, given) {
    const { navigation } = this.page.natives;
    const keyOf = (/** @type {object|null} */ entry) => entry && apply(navigation.key, entry, []);
    const keys = mapped(apply(navigation.entries, this.navigation, []), keyOf);
    const current = positionOf(keys, keyOf(apply(navigation.currentEntry, this.navigation, [])));
    const position = name === 'traverseTo' ? positionOf(keys, given) : current + (name === 'back' ? -1 : 1);
    return current < 0 || position < 0 || position === current || position >= keys.length ? undefined : keys[position];
  }

  /**
   * A call goes to an entry. If an earlier call does, the browser makes one step of both; one of them can have failed.
   * @param {string|undefined} key
   */
  #noteStepTo(key) {
    const { recording } = this;
    const known = key && findItem(this.steps, (step) => step.key === key);
    if (known && known.moment && !recording.isBeforeRunning(known.moment.event)) known.moment = null;
    else if (key && !known) this.#addStep({ moment: recording.moment(), key });
  }

  /**
   * The call of a step that comes now; nothing if it can be one of two.
   * @param {string} key
   * @returns {Moment|null|undefined}
   */
  #takeStep(key) {
    const byKey = findItem(this.steps, (step) => step.key === key);
    const byHistory = findItem(this.steps, (step) => !step.key);
    this.steps = keep(this.steps, (step) => step !== byKey && step !== byHistory);
    return byKey && byHistory ? null : (byKey || byHistory)?.moment;
  }

  /**
   * At `navigate`: which events of the page the step queues, and after which call they come.
   * @param {NavigateEvent} event
   */
  #noteNavigation(event) {
    if (this.recording.isOver) return;
    const { navigationType, hashChange, destination } = event;
    const { window, queued } = this.page;
    const isStep = navigationType === 'traverse';
    const isEndHeard = destination.sameDocument && this.#isEndHeard();
    const moment = isStep ? this.#takeStep(destination.key) : (hashChange || isEndHeard) && queued.causeNow();
    this.#expectNoEnd();
    if (!moment) return;
    const begin = isStep ? queued.note(this.navigation, 'navigate', moment, (one) => one === event) : undefined;
    if (!destination.sameDocument) return;
    if (isEndHeard) this.#expectEnd(moment, begin);
    if (isStep) queued.note(window, 'popstate', moment);
    const { url } = destination;
    if (hashChange) queued.note(window, 'hashchange', moment, ({ newURL }) => newURL === url);
  }

  // ---- the end of a step

  /** Whether the page listens to the end of steps. */
  #isEndHeard() {
    const { listened } = this.page.capturing;
    return listened.has('navigatesuccess') || listened.has('navigateerror');
  }

  /**
   * A step has begun that nobody has intercepted yet. Its end comes after its call, and after its `navigate`.
   * @param {Moment} moment
   * @param {import('./queued.js').Expected} [begin]
   */
  #expectEnd(moment, begin) {
    this.ending = this.page.queued.note(this.navigation, null, moment, isEnd);
    if (this.ending && begin) this.ending.before = begin;
  }

  /**
   * Whether an event is the end of a step that nobody has intercepted: it comes in a job of what caused the step.
   * @param {Event} event
   */
  endsInJob(event) {
    return isEnd(event) && !!this.ending;
  }

  /**
   * Whether an event is the end of any other step, which a promise of the page can delay.
   * @param {Event} event
   */
  endsLater(event) {
    return isEnd(event) && !this.ending;
  }

  /** Another step begins, or a handler is called for the last one: its end has come, or has another cause. */
  #expectNoEnd() {
    this.page.queued.drop(this.navigation, this.ending);
    this.ending = undefined;
  }

  // ---- what a page does in place of a navigation

  /**
   * Hooks `intercept` of a navigation: its handler is called by the browser later, after the event.
   * @param {any} owner the types lack this interface
   */
  #replaceIntercept(owner) {
    const navigations = this;
    replaceMethod(owner, 'intercept', (native) => function intercept(...words) {
      const { 0: options } = words;
      const isSeen = !navigations.recording.isOver && isPlainObject(options) && typeof options.handler === 'function';
      if (isSeen) words[0] = { ...options, handler: navigations.#wrap(this, options.handler) };
      return apply(native, this, words);
    });
  }

  /**
   * The browser calls it when the listeners of `navigate` are done: it is a handler after them.
   * @param {Event} event
   * @param {Function} callback
   * @returns {import('../types').Method}
   */
  #wrap(event, callback) {
    const navigations = this;
    const { navigation, recording, page: { jobs, dispatches, queued, promises } } = this;
    const handler = jobs.registerJob(callback, 'intercept');
    return function intercepted() {
      const call = () => apply(callback, this, arguments);
      if (recording.isOver) return call();
      const run = () => {
        navigations.#expectNoEnd();
        const expected = queued.note(navigation, null, recording.moment(), isEnd);
        const result = call();
        if (expected && promises.isPlain(result)) navigations.#moveToEnd(expected, result);
        return result;
      };
      return recording.contexts.length ? run() : dispatches.runHandler(handler, event, navigation, run);
    };
  }

  /**
   * The step ends once the promise of the callback is settled, so after what the callback did by then. The browser waits for it too.
   * @param {import('./queued.js').Expected} expected
   * @param {object} promise
   */
  #moveToEnd(expected, promise) {
    const settled = () => { expected.moment = this.recording.moment() || expected.moment; };
    apply(this.page.natives.then, promise, [settled, settled]);
  }
}

export { Navigations };
