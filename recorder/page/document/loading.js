// The events of a document's loading, and the load events of its elements. `readystatechange`, `DOMContentLoaded` (after deferred scripts), `load`, `pageshow`,
// `beforeunload`, and `load` and `error` (`onload`, `onerror`) of images, scripts, style sheets and frames.

import { each, hasItem, joined, positionOf } from '../core/lists.js';
import { fits } from '../core/strings.js';
import { WeakSet, apply } from '../core/taken.js';
import { isElement, isMedia } from '../core/things.js';
import { LoadsInOrder } from './loads-in-order.js';

/** The events of a page that is left, in their order. */
const LEAVING = ['beforeunload', 'pagehide', 'visibilitychange', 'unload'];
/** @typedef {import('../types').Moment} Moment */
/** @typedef {import('../types').Moments} Moments */
/** @typedef {import('../types').Target} Target */
/** @typedef {import('../types').Dispatch} Dispatch */
/** @typedef {import('../types').NewDispatch} NewDispatch */
/** @typedef {import('../events/dispatches.js').EventDispatch} EventDispatch */

/** One for each document: `page.loading`. */
class Loading {
  /** @param {import('../types').Page} page */
  constructor(page) {
    this.page = page;
    this.recording = page.recording;
    this.hasBegunDomContentLoaded = false;
    this.hasBegunLoad = false;
    /** The next page in the window of an empty one: the browser can parse it at once, and then no listener hears of it. */
    this.isHeardLate = false;
    this.loaded = new WeakSet();
    /**
     * The dispatch `dcl` or `load` that events at the same moment of loading join, in groups of their own.
     * @type {Dispatch|null}
     */
    this.moment = null;
    /**
     * The ends of what the window's load has waited for, which its handlers come after.
     * @type {Moment[]}
     */
    this.awaited = [];
    /**
     * The end of `readystatechange` to `interactive`, until a deferred script, or DOMContentLoaded, comes after it.
     * @type {Moment[]}
     */
    this.parsed = [];
    /**
     * How far the page is left, and the end of the last event of it.
     * @type {{step: number, ends: Moment[]}}
     */
    this.leaving = { step: 0, ends: [] };
    /**
     * The last blocking script, and the end of its run.
     * @type {{number: number, end: import('../types').Moment|null}}
     */
    this.lastRun = { number: 0, end: null };
    this.inOrder = new LoadsInOrder(page);
  }

  /**
   * @param {Event} event
   * @param {Target} target
   */
  #isOfDocument(event, target) {
    return event.isTrusted && (target === this.page.document || target === this.page.window);
  }

  /**
   * `readystatechange` to `complete`, `load` and `pageshow` come one directly after the other, so they are one dispatch;
   * and so are `readystatechange` to `interactive` and DOMContentLoaded, where no deferred script runs between. Called by page/events/dispatches.js.
   * @param {Event} event
   * @param {Target} target
   */
  joinEnd(event, target) {
    const { moment, recording } = this;
    if (!moment || !this.#isOfDocument(event, target) || recording.contexts.length) return null;
    const joins = hasItem(moment.end === 'dcl' ? ['DOMContentLoaded'] : ['load', 'pageshow'], event.type);
    if (!joins || moment.isClosed || recording.top() !== moment) return null;
    moment.event = event;
    this.page.dispatches.readSlots([this.page.document, this.page.window], event.type);
    return moment;
  }

  /** DOMContentLoaded has come before load, and no handler has run. */
  #writeUnheard() {
    const { recording, page } = this;
    const dispatch = { number: recording.next('dispatch'), group: -1, isInline: false };
    this.#beginEnd(dispatch, 'dcl');
    page.dispatches.readSlots([page.document, page.window], 'DOMContentLoaded');
    recording.push(dispatch);
    recording.finishTop();
  }

  /** Writes the begin of a dispatch that belongs to loading. Returns whether it does. Called by page/events/dispatches.js. */
  begin(/** @type {EventDispatch} */ dispatch) {
    const { event, target } = dispatch;
    if (this.#isOfDocument(event, target)) return this.#beginOfDocument(dispatch);
    if (!this.recording.steering.isTrusted(event) || target.nodeType !== 1 || isMedia(target)) return false;
    return event.type === 'load' || event.type === 'error' ? this.#beginOfElement(dispatch) : false;
  }

  /**
   * Begins `readystatechange`, `DOMContentLoaded` or `load` of the document or its window, if the dispatch is one. Returns whether it is.
   * @param {EventDispatch} dispatch
   */
  #beginOfDocument(dispatch) {
    const { event } = dispatch;
    const state = this.page.document.readyState;
    const isComplete = event.type === 'readystatechange' && state === 'complete';
    if ((event.type === 'load' || isComplete) && !this.hasBegunLoad) {
      if (this.isHeardLate && !this.hasBegunDomContentLoaded) this.#writeUnheard();
      return this.#beginEnd(dispatch, 'load');
    }
    const isParsed = event.type === 'readystatechange' && state === 'interactive' && !this.page.tree.pendingDeferred.size;
    const isFirst = !this.hasBegunDomContentLoaded && !this.hasBegunLoad;
    if ((event.type === 'DOMContentLoaded' || isParsed) && isFirst) return this.#beginEnd(dispatch, 'dcl');
    return event.type === 'readystatechange' && state === 'interactive' && isFirst && this.#beginParsed(dispatch);
  }

  /**
   * The page is parsed, and deferred scripts are to run: after all parse steps, and before these scripts.
   * @param {EventDispatch} dispatch
   */
  #beginParsed(dispatch) {
    const { recording, page } = this;
    const { elements, scripts, tree } = page;
    const standIn = recording.next('element');
    dispatch.awaits = page;
    recording.noteBeside(tree.lastParsed, `new ${page.number} ${standIn} plain`);
    recording.log.name('element', standIn, { standsFor: elements.number(page.document), why: 'the end of parsing' });
    const isAfterRun = this.lastRun.number === tree.lastParsed; // else a parse step stands between
    recording.begin(`fire ${dispatch.number} ${standIn} readystatechange`, 'begin', undefined, isAfterRun ? [] : [scripts.last.event]);
    this.#comeAfter(dispatch, isAfterRun ? [this.lastRun.end] : [], 'the end of a script');
    dispatch.whenClosed = () => { this.parsed = [recording.lastMoment()]; };
    return true;
  }

  /**
   * A blocking script has run. Called by page/scripts/scripts.js.
   * @param {number} number
   */
  noteRunOf(number) {
    this.lastRun = { number, end: this.recording.moment() || this.recording.lastMoment() };
  }

  /** A deferred script begins to run. Called by page/scripts/modules.js and page/scripts/scripts.js. */
  comeAfterParsing() {
    const { parsed } = this;
    this.parsed = [];
    this.page.joins.here(parsed, 'the end of parsing');
    this.#noteAfterParsing();
  }

  /**
   * What the end of parsing is after: the last step, and the run of a script that stands last. Nothing while the parser goes on. Called by
   * page/scripts/ready.js.
   * @returns {import('../types').Moment[]}
   */
  endOfParsing() {
    const { tree, natives, document } = this.page;
    if (apply(natives.readyState, document, []) === 'loading') return [];
    const end = this.lastRun.number === tree.lastParsed ? this.lastRun.end : null;
    return joined(tree.lastStep ? [tree.lastStep] : [], end ? [end] : []);
  }

  /** A rule puts the running event after the parsing (5, 6, 8, 10). */
  #noteAfterParsing() {
    const { after } = this.recording.running;
    each(this.endOfParsing(), ({ event }) => { after[after.length] = event; });
  }

  /**
   * The handlers of a dispatch come after some ends.
   * @param {NewDispatch} dispatch
   * @param {Moments} ends
   * @param {string} why
   */
  #comeAfter(dispatch, ends, why) {
    dispatch.moments = ends;
    dispatch.why = why;
  }

  /**
   * Begins the dispatch that the rules know as the end of parsing (`dcl`) or of loading (`load`), after what it waits for.
   * @param {NewDispatch} dispatch
   * @param {'dcl'|'load'} end
   */
  #beginEnd(dispatch, end) {
    if (end === 'dcl') this.hasBegunDomContentLoaded = true;
    else this.hasBegunLoad = true;
    dispatch.end = end;
    if (end === 'dcl') {
      dispatch.awaits = this.page;
      this.#comeAfter(dispatch, joined(this.parsed, this.page.observers.takeObserved()), 'the end of parsing');
    } else this.#comeAfter(dispatch, this.awaited, 'what load waits for');
    this.moment = /** @type {Dispatch} */ (dispatch);
    this.recording.begin(`${end} ${dispatch.number} ${this.page.number}`, 'begin');
    this.#noteAfterParsing();
    return true;
  }

  /**
   * The first `load` or `error` event of an element, or of a source that a script set later, is its `eload`.
   * @param {EventDispatch} dispatch
   */
  #beginOfElement(dispatch) {
    const target = /** @type {Element} */ (dispatch.target);
    const { elements, sources, tree } = this.page;
    const later = sources.loads.get(target);
    if (later?.isOver) return this.#beginAgain(dispatch, later.number);
    if (!later && this.loaded.has(target)) return false;
    const number = later ? later.number : elements.declaredNumber(target);
    if (later?.isFirst) later.isOver = true;
    else if (later) sources.loads.delete(target);
    else this.loaded.add(target);
    this.recording.begin(`eload ${dispatch.number} ${number}`, 'begin');
    this.inOrder.begins(dispatch, target, later);
    sources.missFrame(target);
    this.#noteAwaited(dispatch, number, tree.isParsing() && tree.lastParsed === number && sources.isEmptyFrame(target), later);
    return true;
  }

  /**
   * A further load of an image, as a candidate of its `srcset`: no load was before its first source.
   * @param {EventDispatch} dispatch
   * @param {number} standIn
   */
  #beginAgain(dispatch, standIn) {
    this.recording.begin(`fire ${dispatch.number} ${standIn} ${dispatch.event.type}`, 'begin');
    return true;
  }

  /**
   * The load or error event of a script for which the parser or DOMContentLoaded waits comes inside its run, directly after its last statement; the
   * run of a script that failed is empty. Returns whether the event is such a one. Called by page/events/dispatches.js.
   * @param {EventDispatch} dispatch
   */
  beginInRun(dispatch) {
    const { event, target } = dispatch;
    const { scripts, dispatches } = this.page;
    const isOfScript = event.isTrusted && target.localName === 'script' && fits(/^(load|error)$/, event.type) && !this.loaded.has(target);
    if (!isElement(target) || !isOfScript) return false;
    if (event.type === 'load') this.recording.unmarked.noteLoaded(target);
    this.recording.finishAll();
    if (!scripts.isRunning(target) && !scripts.runEmpty(target)) return false;
    this.loaded.add(target);
    dispatches.writeInline(dispatch, 'its run is over');
    return true;
  }

  // ---- the end of a page

  /**
   * The events of a page that is left come in one order: each comes after the one before. A call that leaves it dispatches the first one itself. Called by
   * page/events/dispatches.js.
   * @param {EventDispatch} dispatch
   */
  orderLeaving(dispatch) {
    const { event, target } = dispatch;
    const step = this.#isOfDocument(event, target) ? positionOf(LEAVING, event.type) : -1;
    if (step < 0 || this.leaving.step > step || (event.type === 'visibilitychange' && this.leaving.step < positionOf(LEAVING, 'pagehide'))) return;
    if (step > 0) this.#comeAfter(dispatch, this.leaving.ends, 'an event before');
    dispatch.whenClosed = () => {
      this.leaving = { step, ends: (dispatch.group || 0) < 0 ? this.leaving.ends : [this.recording.lastMoment()] };
    };
  }

  // ---- what the window's load waits for

  /**
   * Where an event for which load waits has made an element that load waits for too, no rule says that the element's load comes before load. So the
   * close of its load event has an empty handler, which load runs before its own ones.
   * @param {NewDispatch} dispatch
   * @param {number} number
   * @param {boolean} isOfParser whether the parser goes on only after it
   * @param {import('./sources.js').Load|undefined} later
   */
  #noteAwaited(dispatch, number, isOfParser, later) {
    const { elements, kinds, tree } = this.page;
    const element = /** @type {Element} */ (dispatch.target);
    const isMade = elements.awaited.has(number) && !kinds.isLazy(element);
    if (isMade || tree.staticLoads.has(number)) dispatch.awaits = this.page;
    dispatch.whenClosed = () => {
      this.inOrder.ends(element, later);
      if (isMade && !this.hasBegunLoad) this.awaited[this.awaited.length] = this.recording.lastMoment();
      if (isOfParser) this.page.observers.noteBeforeScript();
      this.page.inOrder.ends(number);
    };
  }

  /**
   * An inline module that a script inserted runs, for which load waits: it has no load event. What it does after an import that waits is another event.
   * @param {number} number
   * @param {Moment} moment
   */
  noteAwaitedRun(number, moment) {
    if (this.page.elements.awaited.has(number) && !this.hasBegunLoad) this.awaited[this.awaited.length] = moment;
  }
}

export { Loading };
