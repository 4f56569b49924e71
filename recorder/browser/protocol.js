'use strict';
// The calls, answers and events of the DevTools protocol, over whatever carries its messages. A call fails with a BrowserFault if the connection closes before
// its answer, or if no answer comes in time (timeout).

const { EventEmitter } = require('node:events');
const { debug } = require('../common/debug.js');

/**
 * What a method of the protocol takes or answers, or the parameters of an event: its members differ by method.
 * @typedef {{[name: string]: any}} ProtocolObject
 * @typedef {{id?: number, method?: string, params?: ProtocolObject, sessionId?: string, result?: ProtocolObject, error?: {message: string}}} ProtocolMessage
 * @typedef {{resolve: (result: ProtocolObject) => void, reject: (fault: Error) => void, timer: NodeJS.Timeout}} Waiting
 */

/** The longest wait for an answer of the browser in milliseconds, if the caller sets no other limit. */
const LONGEST_ANSWER = 60000;

/** Why the browser did not do what it was asked to do. */
class BrowserFault extends Error {}

/**
 * Events: each event of the protocol under its method's name, and `gone` once the browser has ended. A subclass has its own `write`. Extended by attached.js
 * and chromium.js.
 */
class Protocol extends EventEmitter {
  constructor() {
    super();
    this.setMaxListeners(0); // each tab listens
    /** @type {Map<number, Waiting>} */
    this.answers = new Map();
    this.lastId = 0;
    this.isGone = false;
  }

  /**
   * Sends a text to the browser.
   * @abstract
   * @param {string} text
   */
  write(text) {
    throw new Error(`no way to send ${text}`);
  }

  /**
   * Takes a message as it came. Called by attached.js and chromium.js.
   * @param {string} text a message as it came
   */
  receiveText(text) {
    debug('protocol', 'RECV', text);
    this.receive(JSON.parse(text));
  }

  /**
   * Emits an event, or settles the call that a message answers.
   * @param {ProtocolMessage} message
   */
  receive({ id, method = '', params, sessionId, result, error }) {
    if (!id) {
      this.emit(method, params, sessionId);
      return;
    }
    const answer = this.takeAnswer(id);
    if (error) answer?.reject(new BrowserFault(error.message));
    else answer?.resolve(result || {});
  }

  /**
   * Who waits for an answer; nobody if it came too late.
   * @param {number} id
   */
  takeAnswer(id) {
    const answer = this.answers.get(id);
    this.answers.delete(id);
    clearTimeout(answer?.timer);
    return answer;
  }

  /**
   * Calls a method of the protocol. Fails if the browser has ended, or does not answer within `limit` milliseconds.
   * @param {string} method
   * @param {ProtocolObject} [params]
   * @param {string} [sessionId]
   * @returns {Promise<ProtocolObject>}
   */
  send(method, params = {}, sessionId = undefined, limit = LONGEST_ANSWER) {
    if (this.isGone) return Promise.reject(new BrowserFault('the browser has ended'));
    const id = ++this.lastId;
    const text = JSON.stringify({ id, method, params, sessionId });
    debug('protocol', 'SEND', text);
    this.write(text);
    return new Promise((resolve, reject) => {
      const late = () => this.takeAnswer(id)?.reject(new BrowserFault(`no answer to ${method} in ${limit / 1000} s`));
      this.answers.set(id, { resolve, reject, timer: setTimeout(late, limit) });
    });
  }

  /**
   * The browser has gone: calls without an answer fail.
   * @param {string} why
   */
  end(why) {
    if (this.isGone) return;
    this.isGone = true;
    for (const id of [...this.answers.keys()]) this.takeAnswer(id)?.reject(new BrowserFault(why));
    this.emit('gone', why);
  }
}

module.exports = { Protocol, BrowserFault };
