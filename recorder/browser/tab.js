'use strict';
// One tab of the browser: its session of the DevTools protocol. Its target is created, its cookies are read, downloads are refused, windows that the page opens
// (popups) are closed; `evaluate` runs code in it.

/**
 * @typedef {import('./protocol.js').Protocol} Protocol
 * @typedef {import('./protocol.js').ProtocolObject} ProtocolObject
 * @typedef {(params: ProtocolObject, sessionId?: string) => void} Listener
 */

const { keepSecret, SHORTEST_FOUND } = require('../common/secrets.js');
const { within } = require('../common/time.js');

/** The size of a page's window (viewport) in CSS pixels, without `--viewport`: as of a small laptop, in which wide layouts are shown. */
const WINDOW = { width: 1100, height: 800 };
/** In milliseconds. */
const LONGEST_COOKIES = 1000;
/** What a browser asks its user for before a page reaches servers of this machine, and of the network around it. */
const LOCAL_NETWORK = ['loopback-network', 'local-network'];

/** Of an own browser; attached.js has that of another program's, driven-tab.js those of a driver. */
class Tab {
  /**
   * Opens a tab in a context of its own, or in the profile's.
   * @param {Protocol} browser
   * @param {{width: number, height: number}} size
   * @param {boolean} [isOfProfile] whether it has the cookies and the storage of the browser's profile; else those are its own
   */
  static async open(browser, { width, height }, isOfProfile = false) {
    const browserContextId = isOfProfile ? undefined : (await browser.send('Target.createBrowserContext')).browserContextId;
    await browser.send('Browser.setDownloadBehavior', { behavior: 'deny', browserContextId });
    const { targetId } = await browser.send('Target.createTarget', { url: 'about:blank', browserContextId, width, height, newWindow: true });
    const { sessionId } = await browser.send('Target.attachToTarget', { targetId, flatten: true });
    return new Tab(browser, { contextId: browserContextId, targetId, sessionId });
  }

  /**
   * @param {Protocol} browser
   * @param {{contextId: string|undefined, targetId: string, sessionId: string}} numbers without a context it is of the browser's profile
   */
  constructor(browser, { contextId, targetId, sessionId }) {
    this.browser = browser;
    this.contextId = contextId;
    this.targetId = targetId;
    this.sessionId = sessionId;
    /** @type {[method: string, listener: Listener][]} */
    this.listeners = [];
    /**
     * The world of `evaluateApart`.
     * @type {number|null}
     */
    this.world = null;
  }

  /**
   * Pages of an origin may ask servers of this machine and of its network. Called by local-network.js.
   * @param {string} origin
   */
  async allowLocalNetwork(origin) {
    const grant = { setting: 'granted', origin, browserContextId: this.contextId };
    // a browser that knows no such permission needs none
    await Promise.all(LOCAL_NETWORK.map((name) => this.browser.send('Browser.setPermission', { permission: { name }, ...grant }).catch(() => {})));
  }

  /** Takes note of the values of the browser's cookies: no file and no output has them. Called by driven/flow-recorder.js. */
  async keepCookies() {
    const answer = this.browser.send('Storage.getCookies', { browserContextId: this.contextId }).catch(() => ({ cookies: [] })); // the browser has gone
    const { cookies } = await within(answer, LONGEST_COOKIES, { cookies: [] });
    cookies.forEach((/** @type {{value: string}} */ { value }) => keepSecret(value, SHORTEST_FOUND));
  }

  /**
   * Closes the tab and forgets what its page stored, unless that is of the profile. Called by recording/attached-recorder.js, recording/recorder.js and
   * replay/found/pictures.js.
   */
  async close() {
    this.removeListeners();
    if (!this.contextId) {
      await this.browser.send('Target.closeTarget', { targetId: this.targetId });
      return;
    }
    await this.browser.send('Target.disposeBrowserContext', { browserContextId: this.contextId });
  }

  /** Hears no more events: of a tab that is done with, in a browser that goes on. Called by attached.js. */
  removeListeners() {
    this.listeners.forEach(([method, listener]) => this.browser.off(method, listener));
  }

  /**
   * Calls a method of the protocol in this tab.
   * @param {string} method
   * @param {ProtocolObject} [params]
   * @param {number} [limit] in milliseconds
   */
  send(method, params, limit) {
    return this.browser.send(method, params, this.sessionId, limit);
  }

  /**
   * Listens to an event of the protocol of this tab.
   * @param {string} method
   * @param {(params: ProtocolObject) => void} listener
   */
  on(method, listener) {
    this.onAny(method, (params, sessionId) => sessionId === this.sessionId && listener(params));
  }

  /**
   * Listens to the events of every session. Called by recording/attached-recorder.js.
   * @param {string} method
   * @param {Listener} listener
   */
  onAny(method, listener) {
    this.listeners.push([method, listener]);
    this.browser.on(method, listener);
  }

  /**
   * Closes each window that the page opens. It would run in the page's own process, with no recorder in it: its dialogs and
   * its endless loops would stop the page. Called by recording/session.js.
   * @param {() => void} note
   */
  async closeOpenedWindows(note) {
    this.onAny('Target.targetCreated', ({ targetInfo }) => {
      const isOfTab = this.contextId ? targetInfo.browserContextId === this.contextId : targetInfo.openerId === this.targetId;
      if (targetInfo.type !== 'page' || !isOfTab || targetInfo.targetId === this.targetId) return;
      note();
      this.browser.send('Target.closeTarget', { targetId: targetInfo.targetId }).catch(() => {}); // it has closed itself
    });
    await this.browser.send('Target.setDiscoverTargets', { discover: true });
  }

  /**
   * The identifier of the page's own frame. Called by responses.js.
   * @returns {Promise<string>}
   */
  async mainFrame() {
    return (await this.send('Page.getFrameTree')).frameTree.frame.id;
  }

  /**
   * The value of an expression in a world of its own, in which the page has replaced nothing. Called by user.js and replay/found/end-state.js.
   * @param {string} expression
   * @returns {Promise<any>} whatever the page answers
   */
  async evaluateApart(expression) {
    return (await this.resultApart(expression, true)).value;
  }

  /**
   * The number by which the protocol knows an object of that world, or undefined. Called by user-steps.js.
   * @param {string} expression
   * @returns {Promise<string|undefined>}
   */
  async objectApart(expression) {
    return (await this.resultApart(expression, false)).objectId;
  }

  /**
   * The result of an expression in a world of its own, in which the page has replaced nothing.
   * @param {string} expression
   * @param {boolean} returnByValue
   * @returns {Promise<{value?: any, objectId?: string}>} whatever the page answers
   */
  async resultApart(expression, returnByValue) {
    try {
      if (this.world) return (await this.send('Runtime.evaluate', { expression, returnByValue, contextId: this.world })).result;
    } catch (fault) {
      if (!/context/.test(/** @type {Error} */ (fault).message)) throw fault; // else the world was that of an earlier document
    }
    const frameId = await this.mainFrame();
    const { executionContextId } = await this.send('Page.createIsolatedWorld', { frameId });
    this.world = executionContextId;
    return (await this.send('Runtime.evaluate', { expression, returnByValue, contextId: executionContextId })).result;
  }

  /**
   * The value of an expression in the page's own world; of a promise, if it is waited for, what it gives.
   * @param {string} expression
   * @param {boolean} [awaitPromise]
   * @returns {Promise<any>} whatever the page answers
   */
  async evaluate(expression, awaitPromise = false) {
    const { result } = await this.send('Runtime.evaluate', { expression, returnByValue: true, awaitPromise });
    return result.value;
  }
}

module.exports = { Tab, WINDOW };
