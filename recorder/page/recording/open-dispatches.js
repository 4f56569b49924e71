// The dispatches that are not over, as a stack of nested ones: which of them end before something else can be written.

import { joined, takeFirst } from '../core/lists.js';
import { Map, Set } from '../core/taken.js';
import { Lines } from './lines.js';

/** At most this many inline dispatches are open (docs/format.md). */
const MOST_OPEN = 256;
/** Events in which a script can dispatch another one. */
const MAY_DISPATCH = new Set(['exec', 'timer', 'tick', 'handler', 'close']);
/** So many dispatches of one type at one target are known to come one after the other. */
const MOST_LINKED = 6;
/** So many closes are remembered. */
const MOST_CLOSED = 6;

/** A part of `Recording`, which extends it. */
class OpenDispatches extends Lines {
  /**
   * @param {import('../types').Natives} natives
   * @param {import('../types').Send} send
   */
  constructor(natives, send) {
    super(send);
    this.natives = natives;
    /**
     * What is on the stack, outermost first: 'script', 'callback', 'handler', 'job' or 'call' (of the browser).
     * @type {string[]}
     */
    this.contexts = [];
    /** The browser's task, as far as it is seen: events of one task have one number. */
    this.task = 0;
    /**
     * Those that are open, outermost first.
     * @type {import('../types').Dispatch[]}
     */
    this.dispatches = [];
    /**
     * By target and type: the close of the last dispatch, and the starts of the last ones.
     * @type {Map<string, {close: import('../types').TraceEvent|null, starts: import('../types').TraceEvent[]}>}
     */
    this.places = new Map();
    /**
     * The closes of the browser's last dispatches, with the times of their last handlers.
     * @type {{type: string, moment: import('../types').Moment, time: number}[]}
     */
    this.closed = [];
  }

  /** Whether the format allows an inline dispatch in the running event. */
  mayDispatch() {
    return MAY_DISPATCH.has(this.running.kind) && this.dispatches.length < MOST_OPEN;
  }

  /** The innermost dispatch that is not over, or undefined. */
  top() {
    const { dispatches } = this;
    return dispatches.length ? dispatches[dispatches.length - 1] : undefined;
  }

  /**
   * Notes a dispatch whose begin is written.
   * @param {import('../types').NewDispatch} given
   * @returns {import('../types').Dispatch} the same object
   */
  push(given) {
    const dispatch = /** @type {import('../types').Dispatch} */ (given);
    dispatch.depth = this.contexts.length;
    dispatch.active = 0;
    dispatch.isClosed = false;
    dispatch.lastTime = this.natives.now();
    dispatch.task = this.task;
    this.dispatches[this.dispatches.length] = dispatch;
    return dispatch;
  }

  /**
   * Begins a dispatch of whose cause nothing is known: it comes after the one before of its type at its target (rule 17). Called by page/events/dispatches.js.
   * @param {import('../types').NewDispatch} dispatch
   * @param {'fire'|'wfire'} word
   * @param {number} target an element, or the document of a window
   * @param {string} type
   * @param {import('../types').TraceEvent[]} [after]
   */
  beginAt(dispatch, word, target, type, after = []) {
    const place = `${word} ${target} ${type}`;
    const known = this.places.get(place) || { close: null, starts: [] };
    this.places.set(place, known);
    dispatch.place = place;
    this.begin(`${word} ${dispatch.number} ${target} ${type}`, 'begin', undefined, joined(after, known.close ? [known.close] : []));
    known.starts[known.starts.length] = this.running;
    const oldest = known.starts.length > MOST_LINKED ? takeFirst(known.starts) : undefined;
    if (oldest) oldest.after = []; // else all events would be kept
  }

  /** Writes the end of a dispatch. It stays on the stack: the caller removes it (`finishTop`). */
  close(/** @type {import('../types').Dispatch} */ dispatch) {
    if (dispatch.isClosed) return;
    dispatch.isClosed = true;
    if (dispatch.event) this.endedEvents.add(dispatch.event);
    this.begin(`close ${dispatch.number}`, 'close', undefined, joined(dispatch.beginning ? [dispatch.beginning] : [], dispatch.ran));
    this.noteInside(dispatch);
    const known = dispatch.place && this.places.get(dispatch.place);
    if (known) known.close = this.running;
    if (dispatch.event?.isTrusted) this.#noteClosed(dispatch.event.type, dispatch.lastTime);
    this.running.awaits = dispatch.awaits;
    if (dispatch.whenClosed) dispatch.whenClosed();
  }

  /**
   * Keeps the end of a trusted dispatch for those of its task that follow; only the last MOST_CLOSED.
   * @param {string} type
   * @param {number} time
   */
  #noteClosed(type, time) {
    this.closed[this.closed.length] = { type, moment: this.lastMoment(), time };
    if (this.closed.length > MOST_CLOSED) takeFirst(this.closed);
  }

  /** The top dispatch is over. */
  finishTop() {
    const dispatch = this.top();
    if (!dispatch) return;
    this.close(dispatch);
    this.dispatches.length--;
    const { suspended } = dispatch;
    if (!dispatch.isInline || !suspended) return;
    this.begin(`back ${dispatch.number}`, suspended.kind);
    this.running = suspended;
  }

  /**
   * Dispatches that running code called, and that have returned to it, are over. Called by page/document/attributes.js, page/events/capturing.js and
   * page/events/on-handlers.js.
   */
  finishReturned() {
    for (let top = this.top(); top && top.isInline && !top.active; top = this.top()) {
      if (!this.contexts.length || this.contexts.length > top.depth) return;
      this.finishTop();
    }
  }

  /**
   * All dispatches above a number are over, as a call that may have made them returns. Called by page/events/calls.js and page/events/dispatches.js.
   * @param {number} height
   */
  finishAbove(height) {
    for (let top = this.top(); top && this.dispatches.length > height && top.isInline && !top.active; top = this.top()) this.finishTop();
  }

  /** All dispatches are over whose handlers do not run. Called by page/document/loading.js and page/document/tree.js. */
  finishAll() {
    for (let top = this.top(); top && !top.active; top = this.top()) this.finishTop();
  }
}

export { MOST_OPEN, OpenDispatches };
