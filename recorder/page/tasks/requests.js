// XMLHttpRequest (Ajax) and fetch: requests, their replies, and the promise of a fetch, also of one that a signal aborts. When the promise of a `fetch` is
// resolved or rejected, and who reads the body (`json()`, `text()`); `readystatechange`, `load` of an XHR.

import { each, joined } from '../core/lists.js';
import { replaceMethod } from '../core/replacing.js';
import { sliceOf, withoutFragment } from '../core/strings.js';
import { String, WeakMap, apply } from '../core/taken.js';

const BODY_CALLS = ['json', 'text', 'arrayBuffer', 'blob', 'formData', 'bytes'];

/** @typedef {import('../types').PageWindow} PageWindow */
/** @typedef {import('../types').Facts} Facts */
/** @typedef {import('../types').TraceEvent} TraceEvent */
/** @typedef {import('../types').Moment} Moment */
/**
 * A request that was sent: by which event, the end of the last reply, `others` that the replies come after, and what it is of a database, with the end of
 * the last reply in its transaction. If it opens or deletes a database: the end of its last reply, and that of the request before it with the same name.
 * @typedef {{number: number, sender: TraceEvent|null, end?: Moment, others: Moment[], database?: 'transaction'|'request', queue?: {last: Moment|null},
 *   opening?: {last: Moment|null}, former?: {last: Moment|null}}} Request
 */

/** One for each document: `page.requests`. */
class Requests {
  /** @param {import('../types').Page} page */
  constructor(page) {
    this.page = page;
    this.recording = page.recording;
    this.natives = page.natives;
    /**
     * By response: its request, and the handler of the replies.
     * @type {WeakMap<object, {request: Request, handler: number}>}
     */
    this.responses = new WeakMap();
    /**
     * By XMLHttpRequest: what it was opened for.
     * @type {WeakMap<object, {method: string, address: string}>}
     */
    this.addresses = new WeakMap();
  }

  /** Hooks `XMLHttpRequest` and `fetch`. One call per document, before its code runs. */
  start() {
    const { window } = this.page;
    this.#replaceXhr(window.XMLHttpRequest.prototype);
    this.#replaceFetch(window);
  }

  /**
   * Records a request. Also for connections.js.
   * @param {Facts & {address?: string}|undefined} facts
   * @returns {Request}
   */
  send(facts) {
    const number = this.recording.next('request');
    this.recording.noteAsking(`send ${number}`);
    this.recording.log.name('request', number, { ...facts, url: this.#whole(facts?.address) });
    return { number, sender: this.recording.isRunning() ? this.recording.running : null, others: this.page.endedRequests.lastReplies() };
  }

  /**
   * The whole address of what is asked for.
   * @param {string|undefined} address
   */
  #whole(address) {
    if (address === undefined) return undefined;
    try {
      return withoutFragment(new this.natives.URL(address, this.page.document.baseURI).href);
    } catch {
      return undefined; // no address
    }
  }

  /**
   * Hooks `open` and `send`: the events of an XHR are replies to the request of `send`.
   * @param {any} owner its members differ by interface
   */
  #replaceXhr(owner) {
    const requests = this;
    const { calls, dispatches, endedRequests } = this.page;
    calls.replaceCall(owner, 'abort', false);
    replaceMethod(owner, 'abort', (native) => function abort() {
      const result = apply(native, this, arguments);
      endedRequests.end(dispatches.requests.get(this));
      return result;
    });
    replaceMethod(owner, 'open', (native) => function open(method, address) {
      const former = dispatches.requests.get(this);
      dispatches.requests.delete(this); // what `open` dispatches is no reply of an earlier request
      requests.addresses.set(this, { method: String(method), address: sliceOf(String(address), 0, 200) });
      const result = calls.around(() => apply(native, this, arguments), false);
      endedRequests.end(former);
      return result;
    });
    replaceMethod(owner, 'send', (native) => function send() {
      if (requests.recording.isOver) return apply(native, this, arguments);
      const request = requests.send(requests.addresses.get(this));
      dispatches.requests.set(this, request);
      if (this.upload) dispatches.requests.set(this.upload, request);
      return calls.around(() => apply(native, this, arguments), false);
    });
  }

  /**
   * Hooks `fetch`, and the calls that read a response's body.
   * @param {PageWindow} window
   */
  #replaceFetch(window) {
    const requests = this;
    const { recording } = this;
    replaceMethod(window, 'fetch', (native) => function fetch(input, options) {
      if (recording.isOver) return apply(native, window, arguments);
      const address = sliceOf(String((input && input.url) || input), 0, 200);
      const request = requests.send({ method: (options && options.method) || 'GET', address });
      requests.page.endedRequests.noteFetch(request, input, options);
      return requests.#settle(apply(native, window, arguments), request, requests.#registerReply(), true);
    });
    each(BODY_CALLS, (name) => {
      replaceMethod(window.Response.prototype, name, (native) => function body() {
        const known = requests.responses.get(this);
        const promise = apply(native, this, arguments);
        return known && !recording.isOver ? requests.#settle(promise, known.request, known.handler, false) : promise;
      });
    });
  }

  /** The handler of all replies of one `fetch`: its number. */
  #registerReply() {
    const handler = this.recording.next('handler');
    this.recording.note(`on ${handler}`);
    this.recording.log.name('handler', handler, { type: 'reply of fetch' });
    return handler;
  }

  /**
   * A promise that settles inside a reply, so that the reactions to it run there.
   * @param {Promise<any>} promise of any value
   * @param {Request} request
   * @param {number} handler
   * @param {boolean} isResponse
   */
  #settle(promise, request, handler, isResponse) {
    /** @type {Promise<any>} of any value */
    const settled = new this.natives.promise((resolve, reject) => {
      const reply = (/** @type {() => void} */ call) => this.#runReply(request, handler, settled, call);
      apply(this.natives.then, promise, [(/** @type {any} what the page gets */ value) => {
        if (isResponse) this.responses.set(value, { request, handler });
        reply(() => resolve(value));
      }, (/** @type {unknown} */ reason) => reply(() => reject(reason))]);
    });
    return settled;
  }

  /**
   * A promise is settled in the microtasks of an event, which has aborted what it waits for.
   * @param {object} promise
   * @param {() => void} call
   */
  #settleHere(promise, call) {
    const { recording } = this;
    if (!recording.isOver && recording.mayDispatch()) this.page.promises.settled.set(promise, recording.point(this.page.number));
    call();
  }

  /**
   * The jobs that a reply causes run in its handler.
   * @param {Request} request
   * @param {number} handler
   * @param {object} promise what the page waits for
   * @param {() => void} call
   */
  #runReply(request, handler, promise, call) {
    const { recording } = this;
    if (recording.isOver || recording.isCheckpoint) {
      this.#settleHere(promise, call);
      return;
    }
    recording.startTask();
    const number = recording.next('dispatch');
    recording.begin(`reply ${number} ${request.number}`, 'begin', undefined, [request.sender, request.end?.event]);
    const beginning = recording.lastMoment();
    this.page.promises.settled.set(promise, beginning);
    const dispatch = recording.push({ number, isInline: false, beginning: beginning.event });
    this.page.endedRequests.order(dispatch, request);
    this.page.joins.tellOf(dispatch);
    const told = dispatch.toldEvents;
    recording.begin(`run ${number} ${told ? 1 : 0} ${handler}`, 'handler', undefined, joined([beginning.event, request.sender], told));
    recording.noteInside(dispatch);
    recording.enter('handler');
    call();
    recording.leave();
  }
}

export { Requests };
