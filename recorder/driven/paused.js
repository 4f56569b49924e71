'use strict';
// Paused requests and responses of a driven browser: answers each in the session in which it was paused, and reads which become pages.

const { Tab } = require('../browser/tab.js');

/** @typedef {{requestId: string}} PausedEvent */

/**
 * Whether a response becomes a page: no step to another address, no file to be saved. Called by browser-recorder.js.
 * @param {{[name: string]: any}} event as the protocol has it
 */
function isPage({ responseStatusCode: status, responseHeaders = [] }) {
  /** @param {string} wanted */
  const value = (wanted) => responseHeaders.find((/** @type {{name: string}} */ { name }) => name.toLowerCase() === wanted)?.value || '';
  const isShown = status >= 200 && status !== 204 && status !== 205 && (status < 300 || status >= 400);
  return isShown && /html|xml/i.test(value('content-type')) && !/^attachment/i.test(value('content-disposition'));
}

/** For `Responses` it is the tab of a page load, of which that needs no more than to send answers. Made by browser-recorder.js, as its `paused`. */
class Paused extends Tab {
  /** @param {import('../browser/protocol.js').Protocol} browser */
  constructor(browser) {
    super(browser, { contextId: '', targetId: '', sessionId: '' });
    /**
     * The session in which a request is paused, by its number; the browser's own has none.
     * @type {Map<string, string|undefined>}
     */
    this.sessions = new Map();
    /**
     * What is done before a response of this number is answered.
     * @type {Map<string, () => Promise<void>>}
     */
    this.before = new Map();
  }

  /**
   * A request or a response is paused in a session. Called by browser-recorder.js.
   * @param {PausedEvent} event
   * @param {string|undefined} sessionId
   */
  note({ requestId }, sessionId) {
    this.sessions.set(requestId, sessionId);
  }

  /**
   * Calls a method for a paused request, in the session of its pause.
   * @param {string} method
   * @param {{[name: string]: any}} params as the protocol has them
   * @param {number} [limit]
   */
  async send(method, params = {}, limit) {
    if (method === 'Fetch.fulfillRequest') await this.before.get(params.requestId)?.();
    const sessionId = this.sessions.get(params.requestId);
    if (method !== 'Fetch.getResponseBody') this.forget(params.requestId);
    return this.browser.send(method, params, sessionId, limit);
  }

  /** @param {string} requestId */
  forget(requestId) {
    this.sessions.delete(requestId);
    this.before.delete(requestId);
  }

  /**
   * Lets a request or a response pass as it is. Called by browser-recorder.js.
   * @param {PausedEvent} event
   * @param {object} more parameters
   */
  async letPass({ requestId }, more = {}) {
    await this.send('Fetch.continueRequest', { requestId, ...more }).catch(() => {}); // the page has given it up, or has gone
  }
}

module.exports = { Paused, isPage };
