// Requests that code ends, as a search box ends its former request before the next one: they have no reply after that, so the replies to what is sent then
// come after their last one. Replies in order after `abort()` or a further `open()`.

import { each, findItem, keep, takeFirst } from '../core/lists.js';
import { replaceMethod } from '../core/replacing.js';
import { apply } from '../core/taken.js';
import { comesBefore, isBefore } from '../recording/order.js';

/** So many requests with a signal, and so many ends, are remembered; then the oldest is dropped. */
const MOST_REMEMBERED = 20;

/** @typedef {import('../types').Moment} Moment */
/** @typedef {import('./requests.js').Request} Request */

/** One for each document: `page.endedRequests`. */
class EndedRequests {
  /** @param {import('../types').Page} page */
  constructor(page) {
    this.page = page;
    this.recording = page.recording;
    /**
     * The requests whose controller can still end them.
     * @type {{request: Request, signal: AbortSignal}[]}
     */
    this.signalled = [];
    /**
     * The event that ended a request, and what the request's replies are or come after.
     * @type {{ender: import('../types').TraceEvent, ends: Moment[]}[]}
     */
    this.ended = [];
  }

  /** Hooks `abort`: what was open before it and is aborted after it has ended by it. */
  start() {
    const endedRequests = this;
    replaceMethod(this.page.window.AbortController.prototype, 'abort', (native) => function abort() {
      const before = endedRequests.#open();
      const result = apply(native, this, arguments);
      endedRequests.signalled = endedRequests.#open();
      each(before, (one) => { if (endedRequests.#isAborted(one.signal)) endedRequests.end(one.request); });
      return result;
    });
  }

  /** The requests that nothing has ended: other calls and timeouts can do that too. */
  #open() {
    return keep(this.signalled, ({ signal }) => !this.#isAborted(signal));
  }

  /** @param {AbortSignal} signal */
  #isAborted(signal) {
    return apply(this.page.natives.aborted, signal, []);
  }

  /**
   * A request is sent by `fetch`. Called by requests.js.
   * @param {Request} request
   * @param {any} input whatever the page passes
   * @param {any} options whatever the page passes
   */
  noteFetch(request, input, options) {
    const given = options && options.signal;
    const signal = given === undefined ? input && input.signal : given;
    try {
      if (!signal || this.#isAborted(signal)) return;
    } catch { // no signal: the browser throws an error
      return;
    }
    this.signalled[this.signalled.length] = { request, signal };
    if (this.signalled.length > MOST_REMEMBERED) takeFirst(this.signalled);
  }

  /**
   * The running code has ended a request, which may have its replies already. Nothing is known if the code could have run before the request was sent.
   * @param {Request|undefined} request
   */
  end(request) {
    const moment = this.recording.moment();
    if (!moment || !request || !request.sender) return;
    const ends = request.end ? [request.end] : request.others;
    if (!ends.length || !comesBefore(moment.event, request.sender)) return;
    this.ended[this.ended.length] = { ender: moment.event, ends };
    if (this.ended.length > MOST_REMEMBERED) takeFirst(this.ended);
  }

  /** The last replies of the requests that were ended before the running code: what this code sends is answered after them. Called by requests.js. */
  lastReplies() {
    const { recording, ended } = this;
    /** @type {Moment[]} */
    const found = [];
    for (let k = ended.length - 1; k >= 0 && recording.isRunning(); k--) {
      if (!comesBefore(recording.running, ended[k].ender)) continue;
      each(ended[k].ends, (end) => { if (!findItem(found, ({ event }) => isBefore(event, end.event))) found[found.length] = end; });
    }
    return found;
  }

  /**
   * A reply begins: its handlers come after the replies of requests that were ended.
   * @param {import('../types').NewDispatch} dispatch
   * @param {Request} request
   */
  order(dispatch, request) {
    dispatch.moments = request.others;
    dispatch.why = 'the reply of an ended request';
    dispatch.whenClosed = () => { request.end = this.recording.lastMoment(); };
  }
}

export { EndedRequests };
