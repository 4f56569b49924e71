// Loads of one element whose source is set again: the browser drops a load event that has not come by then, so each comes after the one before. The further
// `src` of an image or a frame, and the page that a frame shows then.

import { WeakMap } from '../core/taken.js';
import { comesBefore } from '../recording/order.js';

/** @typedef {import('../types').TraceEvent} TraceEvent */

/** One for each document: `page.loading.inOrder`. */
class LoadsInOrder {
  /** @param {import('../types').Page} page */
  constructor(page) {
    this.page = page;
    /**
     * By element: the end of its last load event, and what set the source, if that is known.
     * @type {WeakMap<Element, {end: import('../types').Moment, setter: TraceEvent|undefined}>}
     */
    this.last = new WeakMap();
  }

  /**
   * The load event of an element begins. It comes after the one before, if the former source was always set first, as that of the page's text.
   * @param {import('../types').NewDispatch} dispatch
   * @param {Element} element
   * @param {import('./sources.js').Load|undefined} load what it loads, if a source was set later
   */
  begins(dispatch, element, load) {
    dispatch.moments = this.#endsBefore(element, load);
    dispatch.why = 'the load before';
  }

  /**
   * A frame shows a page. Its scripts come after the load of the page before, if that was always there first. Called by sources.js.
   * @param {Element} frame
   * @param {import('./sources.js').Load|undefined} load
   * @param {number} number of the page
   */
  beginsPage(frame, load, number) {
    const ends = this.#endsBefore(frame, load);
    if (ends.length) this.page.recording.formers.set(number, ends);
  }

  /**
   * The end of the load before of an element, if that load always comes first: its source was set before the one of this load.
   * @param {Element} element
   * @param {import('./sources.js').Load|undefined} load
   */
  #endsBefore(element, load) {
    const before = this.last.get(element);
    const isAfter = before?.setter && (before.setter.kind === 'parse' || (load?.setter && comesBefore(load.setter, before.setter)));
    return before && isAfter ? [before.end] : [];
  }

  /**
   * The load event of an element is over.
   * @param {Element} element
   * @param {import('./sources.js').Load|undefined} load
   */
  ends(element, load) {
    const { elements, recording } = this.page;
    this.last.set(element, { end: recording.lastMoment(), setter: load ? load.setter : elements.makers.get(element) });
  }
}

export { LoadsInOrder };
