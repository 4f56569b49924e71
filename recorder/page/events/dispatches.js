// Dispatches: how one begins, and which handlers of it run in which group.

import { each, findItem, hasItem, heightOfLast, joined, positionOf } from '../core/lists.js';
import { settings } from '../core/settings.js';
import { Map, Set, WeakMap, WeakSet, apply } from '../core/taken.js';
import { spellName } from '../log/spelling.js';
import { MOST_OPEN } from '../recording/open-dispatches.js';
import { isOfTree } from './capturing.js';
import { hasConsequences, isConsequence, mayBeOfUser } from './consequences.js';

/** @typedef {import('../types').Dispatch} Dispatch */
/** @typedef {import('../types').Target} Target */
/**
 * A dispatch of an event of the page.
 * @typedef {Dispatch & {event: Event, target: Target}} EventDispatch
 */

/** One for each document: `page.dispatches`. */
class Dispatches {
  /** @param {import('../types').Page} page */
  constructor(page) {
    this.page = page;
    this.recording = page.recording;
    this.natives = page.natives;
    /**
     * By target: the request whose replies the events at it are.
     * @type {WeakMap<EventTarget, import('../tasks/requests.js').Request>}
     */
    this.requests = new WeakMap();
    /**
     * By handler: the event that registered it.
     * @type {Map<number, import('../types').TraceEvent>}
     */
    this.registrars = new Map();
    /**
     * The handlers of the capture phase: at the target they run before the others.
     * @type {Set<number>}
     */
    this.capturers = new Set();
    /**
     * Events that a call has dispatched and that have a record.
     * @type {WeakSet<Event>}
     */
    this.told = new WeakSet();
  }

  /**
   * The dispatch of an event that is not over. Called by capturing.js.
   * @param {Event} event
   */
  find(event) {
    return findItem(this.recording.dispatches, (dispatch) => dispatch.event === event);
  }

  // ---- the begin

  /**
   * Writes the begin of a dispatch. Called by capturing.js.
   * @param {Event} event
   * @param {EventTarget|null} current
   * @returns {Dispatch|null} null if it can have no record: a parse step called it
   */
  begin(event, current) {
    const { recording, page } = this;
    if (recording.isOver) return null;
    const path = apply(this.natives.composedPath, event, []);
    /** @type {Target} */
    const target = path[0] || event.target || current;
    const merged = page.loading.joinEnd(event, target);
    if (merged) return merged;
    const dispatch = /** @type {EventDispatch} */ ({ event, target, number: 0, group: -1, visit: '', isInline: false });
    if (recording.contexts.length || this.#isOfJob(event)) {
      if (!this.#beginInline(dispatch)) return null;
    } else if (!this.#beginConsequence(dispatch) && !page.loading.beginInRun(dispatch)) {
      recording.startTask();
      this.#beginAlone(dispatch);
    }
    recording.push(dispatch);
    if (event.type === 'slotchange') page.observers.orderSlotChange(dispatch);
    if (mayBeOfUser(event, target) && hasConsequences(event.type)) recording.watchTask();
    page.tree.writeLate();
    this.readSlots(path.length ? path : [target], event.type, apply(this.natives.bubbles, event, []));
    page.fields.noteKey(dispatch);
    page.fields.writeInput(event, target);
    page.fields.watchReset(dispatch);
    page.addresses.watch(dispatch, path);
    return dispatch;
  }

  /**
   * A dispatch by a script that was not seen to run, or by the browser in a job. What a driver's code dispatches between two tasks is after none
   * of them.
   * @param {Event} event
   */
  #isOfJob(event) {
    const { recording, page } = this;
    if (settings.isDriven && !recording.isRunning()) return false;
    return !recording.steering.isTrusted(event) || (recording.isCheckpoint && (event.type === 'slotchange' || page.navigations.endsInJob(event)));
  }

  /**
   * Begins a dispatch that running code has called. Returns false if the trace cannot have it.
   * @param {EventDispatch} dispatch
   */
  #beginInline(dispatch) {
    const { recording } = this;
    recording.endPiece();
    if (!recording.mayDispatch()) {
      recording.log.miss('dispatches that a parse step or the start of a dispatch called, or that were nested too deep');
      return false;
    }
    // no rule puts the registration at an object before its first event: the running code looks there
    if (!isOfTree(dispatch.target, this.page.window)) this.readSlots([dispatch.target], dispatch.event.type);
    this.page.loading.orderLeaving(dispatch);
    this.writeInline(dispatch, 'a script dispatched an event at it');
    this.told.add(dispatch.event);
    return true;
  }

  /**
   * Writes the begin of a dispatch inside of the running event. Called by page/document/loading.js.
   * @param {EventDispatch} dispatch
   * @param {string} why
   */
  writeInline(dispatch, why) {
    const { recording } = this;
    const standIn = this.page.elements.standIn(dispatch.target, why);
    dispatch.isInline = true;
    dispatch.suspended = recording.running;
    dispatch.awaits = recording.running.awaits;
    dispatch.number = recording.next('dispatch');
    recording.begin(`inline ${dispatch.number} ${standIn} ${spellName(dispatch.event.type)}`, 'begin', undefined, [dispatch.suspended]);
    dispatch.beginning = recording.running;
    recording.running.insideOf = dispatch.suspended;
  }

  /**
   * What the browser does by itself after the handlers of a user's event is written inside that event's close.
   * @param {EventDispatch} dispatch
   */
  #beginConsequence(dispatch) {
    const { recording } = this;
    if (!mayBeOfUser(dispatch.event, dispatch.target) || this.page.navigations.endsLater(dispatch.event)) return false;
    const { type } = dispatch.event;
    const now = this.natives.now();
    const height = heightOfLast(recording.dispatches, (one) => isConsequence(one, type, recording.task, now));
    if (!height || height >= MOST_OPEN || heightOfLast(recording.dispatches, (one) => one.active) > height) return false;
    recording.isCheckpoint = false;
    while (recording.dispatches.length > height) recording.finishTop();
    const cause = recording.dispatches[height - 1];
    recording.close(cause);
    this.page.controls.noteEnabling(dispatch);
    this.writeInline(dispatch, `a consequence of ${cause.event?.type}`);
    return true;
  }

  /**
   * Begins a dispatch that is in no other one: a reply to a request, a load, a message, an event with a noted cause, or any other.
   * @param {EventDispatch} dispatch
   */
  #beginAlone(dispatch) {
    const { event, target } = dispatch;
    const { recording, page } = this;
    dispatch.number = recording.next('dispatch');
    page.loading.orderLeaving(dispatch);
    const request = this.requests.get(target);
    if (request) {
      recording.begin(`reply ${dispatch.number} ${request.number}`, 'begin', undefined, [request.sender, request.end?.event]);
      page.connections.order(dispatch, request);
    } else if (!page.loading.begin(dispatch) && !page.messages.begin(dispatch) && !page.queued.begin(dispatch)) this.#beginAt(dispatch);
    dispatch.beginning = recording.running;
    recording.log.name('dispatch', dispatch.number, { type: event.type, act: (mayBeOfUser(event, target) && recording.act) || undefined });
  }

  /**
   * Begins a dispatch of whose cause nothing is known, at its target.
   * @param {EventDispatch} dispatch
   */
  #beginAt(dispatch) {
    const { event, target } = dispatch;
    const { recording, page } = this;
    const type = spellName(event.type);
    if (target === page.window) {
      recording.beginAt(dispatch, 'wfire', page.number, type);
      return;
    }
    const element = page.controls.standIn(dispatch) || page.elements.declaredNumber(target);
    recording.beginAt(dispatch, 'fire', element, type, dispatch.comesAfter);
  }

  /**
   * A dispatch that only stands for something the page waits for: one handler at a plain element.
   * @param {number} element
   * @param {string} type
   */
  beginPlain(element, type) {
    const { recording } = this;
    recording.startTask();
    const number = recording.next('dispatch');
    recording.begin(`fire ${number} ${element} ${spellName(type)}`, 'begin');
    return recording.push({ number, group: 0, isInline: false });
  }

  /**
   * The lookup of handlers at each node of the path; trace/spelling.js writes it as reads of all slots that are ever written there. An event that does not
   * bubble reaches only handlers that capture, except at its targets. Called by page/document/loading.js and capturing.js.
   * @param {EventTarget[]} path
   * @param {string} type
   * @param {boolean} bubbles
   */
  readSlots(path, type, bubbles = true) {
    const name = spellName(type);
    const targets = bubbles ? path : this.#targetsOn(path);
    each(path, (node) => {
      const number = this.recording.elementNumbers.get(node);
      if (number) this.recording.log.line(`look ${number} ${name}${hasItem(targets, node) ? '' : ' capture'}`);
    });
  }

  /**
   * The first of a path, and the host of each shadow tree that the target is in: it is the target for what is outside of the tree.
   * @param {EventTarget[]} path
   */
  #targetsOn(path) {
    const targets = [path[0]];
    if (!(/** @type {Target} */ (path[0])).nodeType) return targets;
    each(path, (node) => {
      const root = /** @type {ShadowRoot} */ (apply(this.natives.getRootNode, targets[targets.length - 1], []));
      if (root.host === node) targets[targets.length] = node;
    });
    return targets;
  }

  // ---- handlers

  /**
   * A handler begins to run. Called by on-handlers.js.
   * @param {number} handler
   * @param {Event|undefined} event
   * @param {EventTarget} current
   * @param {'handler'|'attribute'} kind
   * @returns {Dispatch|null} what `handlerEnds` takes
   */
  handlerBegins(handler, event, current, kind = 'handler') {
    const { recording } = this;
    if (recording.isOver || !event || !event.type) return this.#unrecorded();
    const found = this.find(event);
    if (found && !this.#isOnTop(found)) return this.#unrecorded();
    const dispatch = found || this.begin(event, current);
    if (!dispatch) return this.#unrecorded();
    this.page.joins.tellOf(dispatch);
    dispatch.active++;
    const visit = `${event.type}:${event.eventPhase}:${this.capturers.has(handler)}:${this.page.elements.number(current)}`;
    if (dispatch.visit !== visit) {
      dispatch.visit = visit;
      dispatch.group = (dispatch.group ?? -1) + 1;
    }
    recording.begin(`run ${dispatch.number} ${dispatch.group} ${handler}`, 'handler', undefined,
      joined([dispatch.beginning, this.registrars.get(handler)], dispatch.toldEvents));
    recording.running.awaits = dispatch.awaits;
    recording.noteInside(dispatch);
    recording.enter(kind);
    return dispatch;
  }

  /**
   * Whether a handler of a dispatch can run now: those that it called are over then.
   * @param {Dispatch} dispatch
   */
  #isOnTop(dispatch) {
    const { recording } = this;
    if (dispatch.isClosed) return false;
    recording.finishAbove(positionOf(recording.dispatches, dispatch) + 1);
    return recording.top() === dispatch;
  }

  /** A handler runs that is in no dispatch: `handlerEnds` leaves this call. */
  #unrecorded() {
    this.recording.unmarked.noteInPiece();
    this.recording.enter('call');
    return null;
  }

  /**
   * Ends what `handlerBegins` entered: a handler of a dispatch, or with null a call that is not recorded. Called by page/helpers/runs.js.
   * @param {Dispatch|null} dispatch
   */
  handlerEnds(dispatch) {
    const { recording } = this;
    if (dispatch) {
      recording.endPiece();
      if (dispatch.active) dispatch.active--;
      dispatch.lastTime = this.natives.now();
    }
    recording.leaveCall();
  }

  /**
   * Runs a function as a handler of an event. Called by handlers.js, navigations.js and on-handlers.js.
   * @template T
   * @param {number} handler
   * @param {Event|undefined} event
   * @param {EventTarget} current
   * @param {() => T} call
   */
  runHandler(handler, event, current, call) {
    const dispatch = this.handlerBegins(handler, event, current);
    try {
      return call();
    } finally {
      this.handlerEnds(dispatch);
    }
  }
}

export { Dispatches };
