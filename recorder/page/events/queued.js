// Events that a call or a user act queues for a later task. Each is recorded as a `fire` at a stand-in element (docs/recording.md), which is
// created in the action that caused the event: so rule 14 puts the cause before the event. Also `unhandledrejection`, whose cause is who rejected the promise.

import { findItem, heightOfLast, keep, takeFirst } from '../core/lists.js';
import { Map, Set, WeakMap } from '../core/taken.js';
import { isMedia } from '../core/things.js';
import { spellName } from '../log/spelling.js';
import { comesBefore } from '../recording/order.js';
import { isQueuedBy } from './consequences.js';
import { MEDIA_IN_ORDER } from './media.js';
import { FIRST_OF_MOTION, MOTIONS_IN_ORDER } from './motions.js';

/** Event types that always come in this order if they have the same cause. */
const IN_ORDER = new Set([...MOTIONS_IN_ORDER, ...MEDIA_IN_ORDER]);
/** At most this many expected events are remembered for each target; then the oldest is dropped. */
const MOST_WAITING_EVENTS = 100;
/** What a call queues for the next frame comes within this many. */
const FRAMES_OF_A_CALL = 3;

/** @typedef {import('../types').Moment} Moment */
/** @typedef {import('../types').Target} Target */
/** @typedef {import('../types').TraceEvent} TraceEvent */
/**
 * What has caused events: the action (null: the element's declaration), the number of the element that stands for it in them, the end of the last of
 * them, and what has caused an event that always comes before. If it causes events of several types, the last one is of a type in `IN_ORDER`.
 * @typedef {{moment: Moment|null, standIn?: number, last?: Moment, before?: Cause|null, isOfSeveral?: boolean}} Cause
 */
/**
 * An expected event, of a type or of any (null).
 * @typedef {Cause & {type: string|null, isIt: (event: any) => boolean}} Expected `isIt` knows the class of its event
 */

/** One for each document: `page.queued`. */
class Queued {
  /** @param {import('../types').Page} page */
  constructor(page) {
    this.page = page;
    this.recording = page.recording;
    /**
     * Expected events by target: see `note`.
     * @type {WeakMap<EventTarget, Expected[]>}
     */
    this.waiting = new WeakMap();
    /**
     * By target and type: the event that was expected last, whether it has come or not.
     * @type {WeakMap<EventTarget, Map<string|null, Expected>>}
     */
    this.noted = new WeakMap();
    /**
     * Moments after which microtasks ran and might have left rejected promises, and the cause of the `unhandledrejection` events that come next.
     * @type {Moment[]}
     */
    this.ran = [];
    /** @type {Cause|undefined} */
    this.rejecting = undefined;
    /**
     * The cause of the last `unhandledrejection` events.
     * @type {Cause|undefined}
     */
    this.rejected = undefined;
  }

  // ---- expected events

  /**
   * The moment to name as the cause of something that happens now: the running action, or the close of a user's event whose default action the
   * browser performs after the handlers. Returns null if there is neither. Called by navigations.js.
   */
  causeNow() {
    const { recording } = this;
    const moment = recording.moment();
    const top = recording.top();
    if (moment || !top || !top.event || !top.event.isTrusted || top.active || top.task !== recording.task) return moment;
    recording.close(top);
    return recording.lastMoment();
  }

  /**
   * Expects an event at a target.
   * @param {EventTarget} target
   * @param {string|null} type null: any type
   * @param {Moment|null} moment the cause; without one, or after the end of the recording, nothing is expected
   * @param {(event: any) => boolean} [isIt] whether an event of the type is the expected one
   * @returns {Expected|undefined}
   */
  note(target, type, moment, isIt = () => true) {
    if (this.recording.isOver || !moment) return undefined;
    const list = this.waiting.get(target) || [];
    this.waiting.set(target, list);
    const noted = { type, moment, isIt, before: this.#lastOf(target, type, moment) };
    list[list.length] = noted;
    const ofTarget = this.noted.get(target) || new Map();
    this.noted.set(target, ofTarget);
    ofTarget.set(type, noted);
    if (list.length > MOST_WAITING_EVENTS) takeFirst(list);
    return noted;
  }

  /**
   * The last event of a type that was expected at a target, if its cause comes before another one's: of two that are queued one after the other the
   * second comes after the first.
   * @param {EventTarget} target
   * @param {string|null} type
   * @param {Moment} moment
   * @returns {Cause|null}
   */
  #lastOf(target, type, { event }) {
    const last = this.noted.get(target)?.get(type);
    return last?.moment && comesBefore(event, last.moment.event) ? last : null;
  }

  /**
   * Expects an event, unless one of the type is expected already: the browser merges the two, and the first cause counts. Called by causes.js.
   * @param {EventTarget} target
   * @param {string} type
   * @param {Moment|null} moment
   */
  noteOnce(target, type, moment) {
    const isWaiting = findItem(this.waiting.get(target) || [], (one) => one.type === type);
    if (isWaiting) return;
    const noted = this.note(target, type, moment);
    this.page.motions.afterFrames(FRAMES_OF_A_CALL, () => this.drop(target, noted));
  }

  /**
   * An expected event is expected no longer.
   * @param {EventTarget} target
   * @param {Expected|undefined} noted
   */
  drop(target, noted) {
    const list = this.waiting.get(target);
    if (list) this.waiting.set(target, keep(list, (one) => one !== noted));
  }

  /**
   * Expects an event in place of one of the same type that has not come yet: the browser merges the two, and the later cause counts. Called by causes.js and
   * media.js.
   * @param {EventTarget} target
   * @param {string} type
   * @param {Moment|null} moment
   */
  noteAgain(target, type, moment) {
    const list = this.waiting.get(target);
    if (list) this.waiting.set(target, keep(list, (one) => one.type !== type));
    this.note(target, type, moment);
  }

  /**
   * The cause of an event, or undefined. An event that was expected is no longer expected then.
   * @param {Event} event
   * @param {Target} target
   * @returns {Cause|undefined}
   */
  #take(event, target) {
    if (FIRST_OF_MOTION.has(event.type)) return this.page.motions.causeOf(/** @type {import('./motions.js').MotionEvent} */ (event), target);
    if (isMedia(target)) return this.page.media.causeOf(event, target);
    return this.takeNoted(event, target) || this.#rejectionOf(event) || this.page.messages.causeOf(event, target) || this.#actOf(event, target);
  }

  /**
   * Whether an event of a type is expected. Called by played.js.
   * @param {EventTarget} target
   * @param {string} type
   */
  expects(target, type) {
    return findItem(this.waiting.get(target) || [], (one) => one.type === type) !== undefined;
  }

  /**
   * The expected event that has come, which is expected no longer. Called by media.js.
   * @param {{type: string}} event
   * @param {EventTarget} target
   */
  takeNoted(event, target) {
    const list = this.waiting.get(target);
    const found = list && findItem(list, (one) => (one.type || event.type) === event.type && one.isIt(event));
    if (list && found) this.waiting.set(target, keep(list, (one) => one !== found));
    return found;
  }

  /**
   * The close of the user's event that has queued an event by itself, if something else began between.
   * @param {Event} event
   * @param {EventTarget} target
   */
  #actOf({ type }, target) {
    const { closed, natives } = this.recording;
    const now = natives.now();
    const height = heightOfLast(closed, (one) => isQueuedBy(one.type, type, now - one.time));
    if (!height) return undefined;
    this.note(target, type, closed[height - 1].moment);
    return this.takeNoted({ type }, target);
  }

  /**
   * Writes the begin of a dispatch that was caused by an action which is over. Returns whether it is one. Called by dispatches.js.
   * @param {import('./dispatches.js').EventDispatch} dispatch
   */
  begin(dispatch) {
    const { event, target, number } = dispatch;
    const cause = this.recording.steering.isTrusted(event) ? this.#take(event, target) : undefined;
    if (!cause) {
      if (isMedia(target) && event.isTrusted) this.page.played.order(dispatch, target, cause);
      return false;
    }
    const { elements, joins } = this.page;
    const { moment } = cause;
    cause.standIn = cause.standIn || (moment ? elements.standInIn(moment, target, 'its cause') : elements.standIn(target, 'what it loads'));
    this.recording.begin(`fire ${number} ${cause.standIn} ${spellName(event.type)}`, 'begin', undefined, [moment && moment.event]);
    if (IN_ORDER.has(event.type)) this.#keepOrder(dispatch, cause, cause.last);
    else if (cause.before) this.#keepOrder(dispatch, cause, cause.before.last);
    else if (!cause.isOfSeveral) dispatch.whenClosed = () => { cause.last = this.recording.lastMoment(); };
    if (isMedia(target)) this.page.played.order(dispatch, target, cause);
    joins.tellOf(dispatch);
    return true;
  }

  /**
   * An event comes after one before it.
   * @param {import('../types').Dispatch} dispatch
   * @param {Cause} cause
   * @param {Moment|undefined} last the end of the event before
   */
  #keepOrder(dispatch, cause, last) {
    dispatch.moments = [last];
    dispatch.why = 'the event before';
    dispatch.whenClosed = () => { cause.last = this.recording.lastMoment(); };
  }

  // ---- rejections

  /**
   * The microtasks of an event begin. The browser reports what they leave rejected in a task that is queued at their end. A task that is queued at
   * their begin comes directly before it. Called by page/recording/recording.js.
   * @param {TraceEvent} event
   */
  noteJobs(event) {
    if (!this.page.capturing.listened.has('unhandledrejection') || this.ran[this.ran.length - 1]?.event === event) return;
    this.ran[this.ran.length] = this.recording.lastMoment();
    this.page.natives.postBeforeRejections(() => {
      const moment = takeFirst(this.ran);
      this.rejecting = moment && { moment };
    });
  }

  /**
   * All of one moment are of one task, in the order of the rejections: they have one stand-in element (rule 17). Those of an event come after those of one
   * before it.
   * @param {Event} event
   * @returns {Cause|undefined}
   */
  #rejectionOf({ type }) {
    if (type !== 'unhandledrejection') return undefined;
    const { rejecting: cause, rejected: before } = this;
    if (cause?.moment && before?.moment && cause !== before && comesBefore(cause.moment.event, before.moment.event)) cause.before = before;
    this.rejected = cause;
    return cause;
  }
}

export { Queued };
