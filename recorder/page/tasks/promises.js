// Calls that ask for a job: `then`, `queueMicrotask`, and promises of several promises, whose reactions come after what has settled each. `Promise.all`,
// `allSettled`, `any`. The browser calls the `then` of a thenable (an object of the page) in a job of its own, which is not seen: it belongs to the running
// action.

import { each, findItem, joined } from '../core/lists.js';
import { replaceMethod } from '../core/replacing.js';
import { sliceOf } from '../core/strings.js';
import { WeakMap, apply, functionText, getOwnPropertyDescriptor, getPrototypeOf, hasOwn } from '../core/taken.js';
import { isThing } from '../core/things.js';
import { LEFT_OUT } from '../objects/holders.js';
import { LONGEST_PROTOTYPE_CHAIN } from '../objects/kinds.js';

/** Promises of several promises. Of `race` only the first one counts, and its reaction runs after it anyway. */
const SEVERAL = ['all', 'allSettled', 'any'];

/** So many promises that settle each other are followed. */
const MOST_LINKS = 20;

/** @typedef {import('../types').Moment} Moment */
/**
 * What has settled the promises of a promise of several, or what else a promise comes after: also if it is rejected, unless `isIfFulfilled`. One alone
 * has decided it: then the others say nothing. Of promises that are settled one after the other, `asker` is the event that got them all, `ofAsker` has the
 * reactions that it asked for at this promise, and `later` are those that are settled later.
 * @typedef {{moments: (Moment|null)[], isByOne: boolean, name?: string, why?: string, asker?: import('../types').TraceEvent|null, ofAsker?: Moment[],
 *   later?: Several[], isIfFulfilled?: boolean}} Several
 */

/** @param {unknown} given */
const isNativeFunction = (given) => typeof given === 'function' && sliceOf(apply(functionText, given, []), -16) === ' [native code] }';

/** One for each document: `page.promises`. */
class Promises {
  /** @param {import('../types').Page} page */
  constructor(page) {
    this.page = page;
    this.recording = page.recording;
    /**
     * By promise.
     * @type {WeakMap<object, Several>}
     */
    this.several = new WeakMap();
    /**
     * The promise of several promises that is being made.
     * @type {Several|null}
     */
    this.making = null;
    /**
     * By promise: where it was settled, or the promise that settles it.
     * @type {WeakMap<object, Moment|{by: object}>}
     */
    this.settled = new WeakMap();
    this.prototype = page.window.Promise.prototype;
  }

  /** Hooks what asks for jobs. One call per document, before its code runs. */
  start() {
    const { window } = this.page;
    this.#replaceThen(window);
    this.#replaceQueueing(window);
    each(SEVERAL, (name) => this.#replaceSeveral(window.Promise, name));
  }

  /** Whether jobs are recorded now. Called by page/document/reactions.js. */
  isSeen() {
    return this.recording.isRunning() && !this.recording.isOver;
  }

  /**
   * Hooks `then`, which `catch` and `finally` call too: a reaction comes after what settled the promise.
   * @param {import('../types').PageWindow} window
   */
  #replaceThen(window) {
    const promises = this;
    const { jobs } = this.page;
    replaceMethod(window.Promise.prototype, 'then', (native) => function then(fulfilled, rejected) {
      if (!promises.isSeen()) return apply(native, this, [fulfilled, rejected]);
      if (promises.making && isNativeFunction(fulfilled) && isNativeFunction(rejected)) {
        const before = promises.momentsOf(this);
        return apply(native, this, [promises.#watch(promises.making, fulfilled, true, before), promises.#watch(promises.making, rejected, false, before)]);
      }
      const asked = jobs.ask(this);
      const ifRejected = typeof rejected === 'function' ? { ...asked, isRejected: true } : asked;
      const made = apply(native, this, [jobs.wrap(fulfilled, asked), jobs.wrap(rejected, ifRejected)]);
      asked.makes = made;
      ifRejected.makes = made;
      if (typeof fulfilled !== 'function') promises.settled.set(made, { by: this }); // unless it is rejected, which `noteMade` notes
      return made;
    });
  }

  /**
   * Hooks `queueMicrotask`: the job belongs to the action that requested it.
   * @param {import('../types').PageWindow} window
   */
  #replaceQueueing(window) {
    const promises = this;
    const { jobs } = this.page;
    replaceMethod(window, 'queueMicrotask', (native) => function queueMicrotask(callback) {
      if (!promises.isSeen()) return apply(native, window, [callback]);
      return apply(native, window, [jobs.wrap(callback, jobs.ask(null))]);
    });
  }

  // ---- promises of several promises

  /**
   * Hooks `Promise.all` and the like, which call `then` of each promise.
   * @param {object} owner
   * @param {string} name
   */
  #replaceSeveral(owner, name) {
    const promises = this;
    const { recording } = this;
    replaceMethod(owner, name, (native) => function several() {
      if (!promises.isSeen()) return apply(native, this, arguments);
      const outer = promises.making;
      const made = { name, moments: [recording.moment()], isByOne: false };
      promises.making = made;
      try {
        const promise = apply(native, this, arguments);
        promises.several.set(promise, made);
        return promise;
      } finally {
        promises.making = outer;
      }
    });
  }

  /**
   * Wraps one of the two functions that the browser itself registers at each of several promises; the browser calls it when that promise is settled.
   * @param {Several} made
   * @param {import('../types').Method} callback
   * @param {boolean} isFulfilled
   * @param {(Moment|null)[]} before what settled it before that
   * @returns {import('../types').Method}
   */
  #watch(made, callback, isFulfilled, before) {
    const promises = this;
    return function settled() {
      promises.#noteSettled(made, isFulfilled, before);
      return apply(callback, this, arguments);
    };
  }

  /**
   * A promise of several gets the moments at which its members were settled. One that is decided by a single member (`any` fulfilled, `all` rejected) comes
   * only after that one.
   * @param {Several} made
   * @param {boolean} isFulfilled
   * @param {(Moment|null)[]} before
   */
  #noteSettled(made, isFulfilled, before) {
    const { recording } = this;
    if (recording.isOver) return;
    this.page.jobs.endContinuation();
    if (made.name !== 'allSettled' && isFulfilled === (made.name === 'any')) made.isByOne = true;
    each(joined(before, [recording.moment()]), (moment) => {
      if (moment && !findItem(made.moments, (one) => !!one && one.event === moment.event)) made.moments[made.moments.length] = moment;
    });
  }

  /**
   * What the reactions of a promise come after, beside the one that settled it. Called by jobs.js.
   * @param {unknown} promise
   * @param {import('./jobs.js').Asked} [asked] who has asked for the reaction
   * @returns {(Moment|null)[]}
   */
  momentsOf(promise, asked) {
    const several = this.#severalOf(promise);
    const settled = this.#settledIn(promise);
    return joined(several ? momentsFor(several, asked) : [], settled ? [settled] : []);
  }

  /**
   * Why a reaction comes after the moments of its promise. Called by jobs.js.
   * @param {unknown} promise
   */
  whyOf(promise) {
    const several = this.#severalOf(promise);
    return several ? several.why || 'one of several promises' : 'what settled the promise';
  }

  // ---- promises that are settled when a reaction is asked for

  /**
   * Where a promise was settled, if that is known.
   * @param {unknown} promise
   * @returns {Moment|null}
   */
  #settledIn(promise) {
    let at = promise;
    for (let depth = 0; depth < MOST_LINKS && isThing(at); depth++) {
      const known = this.settled.get(at);
      if (!known) return null;
      if ('event' in known) return known;
      at = known.by;
    }
    return null;
  }

  /**
   * The first reaction of a promise begins. If another task asked for it, the promise was not settled then, so that it has been now: the reactions that
   * are asked for later come after this point too. Unless a job before in the same event comes after something else. Called by jobs.js.
   * @param {import('./jobs.js').Asked} asked
   */
  noteFirst({ v: promise, moment, task }) {
    const { recording } = this;
    if (!isThing(promise) || this.#settledIn(promise) || !moment || task === recording.task) return;
    if (recording.running.hasLateJobs || !recording.mayDispatch()) return;
    this.settled.set(promise, recording.point(this.page.number));
  }

  /**
   * A reaction has run, and its promise is settled, or another promise settles it. Called by jobs.js.
   * @param {import('./jobs.js').Asked} asked
   * @param {unknown} result what the reaction returned
   */
  noteMade(asked, result) {
    const { recording } = this;
    const { v: promise, moment, makes: made } = asked;
    const several = this.#severalOf(promise);
    if (several && several.asker && several.asker === moment?.event) noteOfAsker(several, recording.lastMoment());
    if (recording.isOver || !recording.isCheckpoint || recording.contexts.length) return;
    const end = this.page.earlierReactions.note(asked);
    if (!made) return;
    if (this.#isPromise(result)) this.settled.set(made, { by: result });
    else if (this.#settlesAtOnce(result) && recording.mayDispatch()) this.settled.set(made, end || recording.point(this.page.number));
  }

  /**
   * Whether a reaction that returns something settles its promise at once: what has a `then` does so later. A proxy is asked nothing.
   * @param {unknown} given
   */
  #settlesAtOnce(given) {
    const { objects } = this.recording;
    if (!isThing(given)) return true;
    if (objects === null) return false;
    /** @type {object|null} */
    let at = given;
    for (let depth = 0; at !== null && depth < LONGEST_PROTOTYPE_CHAIN; depth++) {
      const holder = objects.kinds.holders.get(at);
      if (holder?.kind === LEFT_OUT || hasOwn(at, 'then')) return false;
      at = getPrototypeOf(at);
    }
    return at === null;
  }

  /**
   * Whether something is a promise of the page. A proxy is asked nothing.
   * @param {unknown} given
   * @returns {given is object}
   */
  #isPromise(given) {
    const { objects } = this.recording;
    return isThing(given) && objects !== null && !objects.kinds.isLeftOut(given) && getPrototypeOf(given) === this.prototype;
  }

  /**
   * Whether something is a promise at which a reaction calls no code of the page, as that of an async function. Called by page/events/navigations.js and
   * callbacks.js.
   * @param {unknown} given
   * @returns {given is object}
   */
  isPlain(given) {
    const maker = getOwnPropertyDescriptor(this.prototype, 'constructor');
    return this.#isPromise(given) && !hasOwn(given, 'constructor') && maker?.value === this.page.natives.promise;
  }

  /** @param {unknown} promise */
  #severalOf(promise) {
    return typeof promise === 'object' && promise !== null ? this.several.get(promise) : undefined;
  }
}

/**
 * What a reaction comes after, by what is known of its promise.
 * @param {Several} several
 * @param {import('./jobs.js').Asked|undefined} asked
 * @returns {(Moment|null)[]}
 */
function momentsFor({ moments, isByOne, asker, ofAsker, isIfFulfilled }, asked) {
  const known = isByOne || (isIfFulfilled && asked?.isRejected) ? [] : moments;
  return asker && asker === asked?.moment?.event ? joined(known, ofAsker) : known;
}

/**
 * A reaction has run that the event asked for which got a promise and those that are settled after it.
 * @param {Several} several
 * @param {Moment} end
 */
function noteOfAsker({ ofAsker, later }, end) {
  if (ofAsker) ofAsker[ofAsker.length] = end;
  each(later || [], ({ moments }) => { moments[moments.length] = end; });
}

export { Promises };
