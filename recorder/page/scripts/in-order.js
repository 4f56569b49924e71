// Scripts that a script inserts with `async = false`: they run in the order of their insertion, which no rule says.

import { Map } from '../core/taken.js';

/** So many scripts are looked at for one that is always inserted before another. */
const MOST_LOOKED_AT = 100;

/** @typedef {import('../types').Moment} Moment */
/**
 * A script that was inserted: by which event, the one inserted before it, the last one that is always inserted before it, and the ends of its run and load
 * event.
 * @typedef {{maker: import('../types').TraceEvent, previous: Inserted|null, before: Inserted|null, ends: Moment[]}} Inserted
 */

/** One for each document: `page.inOrder`. */
class InOrder {
  /** @param {import('../types').Page} page */
  constructor(page) {
    this.page = page;
    this.recording = page.recording;
    /** @type {Inserted|null} */
    this.last = null;
    /** @type {Map<number, Inserted>} */
    this.scripts = new Map();
  }

  /**
   * A script is inserted that has a source, or is a module. It runs after the one before, where that one is inserted before it in any run of the page. Called
   * by page/document/tree.js and insertions.js.
   * @param {Element} element
   * @param {number} number
   */
  note(element, number) {
    if (/** @type {HTMLScriptElement} */ (element).async !== false) return;
    this.last = { maker: this.recording.running, previous: this.last, before: this.#lastBefore(), ends: [] };
    this.scripts.set(number, this.last);
  }

  /**
   * The last script that is inserted before the running event, or by it, in any run of the page.
   * @returns {Inserted|null}
   */
  #lastBefore() {
    const { recording } = this;
    let one = this.last;
    for (let left = MOST_LOOKED_AT; one && left > 0; left--) {
      if (one.maker === recording.running || recording.isBeforeRunning(one.maker)) return one;
      one = one.previous;
    }
    return null;
  }

  /**
   * The ends of the last script before one that has run at all.
   * @param {Inserted} inserted
   * @returns {Moment[]}
   */
  #endsBefore({ before }) {
    if (!before) return [];
    return before.ends.length ? before.ends : this.#endsBefore(before);
  }

  /**
   * A script's run comes after those that the browser runs before it. Called by modules.js and scripts.js.
   * @param {number} number
   */
  begins(number) {
    const script = this.scripts.get(number);
    if (script) this.page.joins.here(this.#endsBefore(script), 'the end of a script');
  }

  /**
   * The run of a script is over, or its load event. Called by page/document/loading.js, modules.js and scripts.js.
   * @param {number} number
   */
  ends(number) {
    const script = this.scripts.get(number);
    if (script) script.ends[script.ends.length] = this.recording.moment() || this.recording.lastMoment();
  }
}

export { InOrder };
