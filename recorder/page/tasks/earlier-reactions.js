// Reactions at one promise, which come in the order in which they were requested, also if the promise was settled between the requests. `then`, `await` of
// a promise that a page keeps, as of a memoised load.

import { keep, mapped, takeFirst } from '../core/lists.js';
import { WeakMap } from '../core/taken.js';
import { isThing } from '../core/things.js';
import { comesBefore } from '../recording/order.js';

/** So many reactions of a promise are remembered that nothing puts in order; then the oldest is dropped. */
const MOST_REMEMBERED = 8;

/** @typedef {import('../types').Moment} Moment */
/** @typedef {import('./jobs.js').Asked} Asked */

/** One for each document: `page.earlierReactions`. */
class EarlierReactions {
  /** @param {import('../types').Page} page */
  constructor(page) {
    this.page = page;
    this.recording = page.recording;
    /**
     * By promise: who requested a reaction, and its end. Each that comes after another one stands for it too.
     * @type {WeakMap<object, {asker: import('../types').TraceEvent, end: Moment}[]>}
     */
    this.ends = new WeakMap();
  }

  /**
   * A reaction is over. If it ran in the task of its request, rules put it before what comes after that. Nothing is known if a job before it in the same
   * event comes after something else.
   * @param {Asked} asked
   * @returns {Moment|undefined} the end, if it is remembered
   */
  note({ v: promise, moment, task, isAfterLate }) {
    const { recording } = this;
    if (!isThing(promise) || !moment || task === recording.task || isAfterLate || !recording.mayDispatch()) return undefined;
    const asker = moment.event;
    const end = recording.point(this.page.number);
    const known = keep(this.ends.get(promise) || [], (one) => !comesBefore(asker, one.asker));
    known[known.length] = { asker, end };
    if (known.length > MOST_REMEMBERED) takeFirst(known);
    this.ends.set(promise, known);
    return end;
  }

  /**
   * The ends of the reactions at its promise that were requested before a reaction. Called by jobs.js.
   * @param {Asked} asked
   * @returns {Moment[]}
   */
  before({ v: promise, moment }) {
    const known = isThing(promise) && this.ends.get(promise);
    const asker = moment?.event;
    return known && asker ? mapped(keep(known, (one) => comesBefore(asker, one.asker)), ({ end }) => end) : [];
  }
}

export { EarlierReactions };
