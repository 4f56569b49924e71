// What is opened or asked and answers with events, as a request does: EventSource, WebSocket, FileReader and IndexedDB. Incoming messages of a socket or a
// stream, `open` and `close` of it, and `success` and `error` of a database request, come after the call.

import { each, keep } from '../core/lists.js';
import { replaceConstructor, replaceMethod } from '../core/replacing.js';
import { sliceOf } from '../core/strings.js';
import { Map, String, WeakMap, apply } from '../core/taken.js';

/** Constructors: what they make gets events from a server for as long as it is open. */
const CONNECTIONS = ['EventSource', 'WebSocket'];
/** Calls whose events come at the object itself. */
/** @type {[owner: string, names: string[]][]} */
const READERS = [['FileReader', ['readAsArrayBuffer', 'readAsBinaryString', 'readAsDataURL', 'readAsText']]];
/** Calls whose events come at the object that they return. */
/** @type {[owner: string, names: string[]][]} */
const ASKERS = [
  ['IDBFactory', ['open', 'deleteDatabase']],
  ['IDBDatabase', ['transaction']],
  ['IDBObjectStore', ['add', 'clear', 'count', 'delete', 'get', 'getAll', 'getAllKeys', 'getAllRecords', 'getKey', 'openCursor', 'openKeyCursor', 'put']],
  ['IDBIndex', ['count', 'get', 'getAll', 'getAllKeys', 'getAllRecords', 'getKey', 'openCursor', 'openKeyCursor']],
  ['IDBCursor', ['delete', 'update']],
];

/** One for each document: `page.connections`. */
class Connections {
  /** @param {import('../types').Page} page */
  constructor(page) {
    this.page = page;
    this.recording = page.recording;
    /**
     * By transaction of a database: the end of the last event of it, or of a request in it.
     * @type {WeakMap<object, {last: import('../types').Moment|null}>}
     */
    this.queues = new WeakMap();
    /**
     * By the name of a database: the last request to open or delete it.
     * @type {Map<string, import('./requests.js').Request>}
     */
    this.opening = new Map();
  }

  /** Hooks constructors (sockets, `EventSource`) and calls that are answered by events. One call per document, before its code runs. */
  start() {
    const { window } = this.page;
    each(CONNECTIONS, (name) => replaceConstructor(window, name, (made, words) => {
      this.#ask(made, { method: name, address: sliceOf(String(words[0]), 0, 200) });
    }));
    this.#replaceCalls(READERS, (target) => target);
    this.#replaceCalls(ASKERS, (target, result) => result);
  }

  /**
   * The events of an object are replies from now on.
   * @param {EventTarget|null} target
   * @param {import('../types').Facts & {address?: string}} facts
   * @param {''|'transaction'|'request'} [of] what it is of a database
   */
  #ask(target, facts, of = '') {
    if (this.recording.isOver || !target) return;
    const { dispatches, requests } = this.page;
    const request = requests.send(facts);
    if (of !== '') request.database = of;
    dispatches.requests.set(target, request);
  }

  /**
   * The request that a database's transaction is, for a request in it.
   * @param {any} result whatever the call returns
   */
  #transactionOf(result) {
    const transaction = result && result.source && result.transaction;
    return transaction ? this.page.dispatches.requests.get(transaction)?.number : undefined;
  }

  /**
   * A reply begins. The requests of a transaction are answered one after the other, then the transaction ends; what has opened the database for a change
   * of its version is answered after that. The events of such a change, which no call has asked for, are replies to the same request. Called by
   * page/events/dispatches.js.
   * @param {import('../events/dispatches.js').EventDispatch} dispatch
   * @param {import('./requests.js').Request} request
   */
  order(dispatch, request) {
    const queue = this.#queueOf(dispatch.target, request);
    if (!queue && !request.opening) {
      this.page.endedRequests.order(dispatch, request);
      return;
    }
    request.queue = queue;
    const { target } = dispatch;
    if (dispatch.event.type === 'upgradeneeded') this.page.dispatches.requests.set(/** @type {any} */ (target).transaction, request);
    dispatch.moments = [queue?.last, request.former?.last];
    dispatch.why = 'the request before';
    dispatch.whenClosed = () => {
      if (queue) queue.last = this.recording.lastMoment();
      if (request.opening) request.opening.last = this.recording.lastMoment();
    };
  }

  /**
   * A database is opened or deleted: the browser does this after what was asked for before with its name, if that is before it in any run of the page.
   * @param {unknown} name
   * @param {unknown} target where the events come
   */
  #noteOpening(name, target) {
    const request = this.page.dispatches.requests.get(/** @type {EventTarget} */ (target));
    if (this.recording.isOver || typeof name !== 'string' || !request) return;
    const former = this.opening.get(name);
    request.opening = { last: null };
    if (former?.sender && this.recording.isRunning() && this.recording.isBeforeRunning(former.sender)) request.former = former.opening;
    this.opening.set(name, request);
  }

  /**
   * The queue of a request to a database: requests of one transaction are answered in their order; undefined if it is no database.
   * @param {EventTarget & {transaction?: object|null}} target
   * @param {import('./requests.js').Request} request
   */
  #queueOf(target, request) {
    if (!request.database) return undefined;
    const transaction = request.database === 'transaction' ? target : target.transaction;
    if (!transaction) return request.queue;
    const queue = this.queues.get(transaction) || { last: null };
    this.queues.set(transaction, queue);
    return queue;
  }

  /**
   * Hooks calls that are answered by events.
   * @param {[owner: string, names: string[]][]} owners
   * @param {(target: any, result: any) => EventTarget|null} answering where the events come, by whatever the call returns
   */
  #replaceCalls(owners, answering) {
    const connections = this;
    each(keep(owners, ({ 0: owner }) => this.page.window[owner]), ({ 0: owner, 1: names }) => {
      each(names, (name) => replaceMethod(this.page.window[owner].prototype, name, (native) => function ask() {
        if (name === 'transaction') connections.recording.steering.holdStores(this, arguments[0]);
        const result = apply(native, this, arguments);
        const of = result === undefined ? '' : name === 'transaction' ? 'transaction' : 'request';
        connections.#ask(answering(this, result), { method: `${owner}.${name}`, of: connections.#transactionOf(result) }, of);
        if (owner === 'IDBFactory') connections.#noteOpening(arguments[0], result);
        return result;
      }));
    });
  }
}

export { Connections };
