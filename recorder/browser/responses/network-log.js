'use strict';
// What the page requests, and which requests have not ended. Requests in flight, and long polls, which are not waited for. The icon of a page (favicon) does
// not count.

const { requestText } = require('../changing.js');
const { isHold } = require('./hold-scripts.js');

/** @typedef {{requestId: string, type?: string, loaderId: string, request: {url: string, method: string}}} Request */

/** Milliseconds without a part of a body, after which it is not waited for. */
const LONGEST_PAUSE = 2000;
/**
 * So many milliseconds a request without any news counts as work of the page while no other one has news. Servers answer within seconds, and a request
 * that waits for what may never happen (a long poll) is open for half a minute or more.
 */
const PATIENCE = 5000;
/** A request that is open for so many milliseconds without news counts no longer, also if others come and go. */
const LONGEST_PATIENCE = 15000;

/** Made by `Responses`; recording/rest.js asks it what is open. */
class NetworkLog {
  constructor() {
    /** How many milliseconds more a request may take, as files that are delayed. */
    this.delay = 0;
    /** @type {Set<string>} the requests whose end is waited for */
    this.open = new Set();
    /** @type {Map<string, NodeJS.Timeout>} */
    this.bodies = new Map();
    /** @type {Map<string, number>} when there was news of each of them */
    this.news = new Map();
    /** When there was news of any. */
    this.lastNews = 0;
    /**
     * Each request as `METHOD ADDRESS`.
     * @type {string[]}
     */
    this.asked = [];
  }

  /**
   * Listens to what the browser says of requests. The body of a `fetch` is waited for as long as parts of it come.
   * @param {import('../tab.js').Tab} tab
   */
  async start(tab) {
    tab.on('Network.requestWillBeSent', (params) => this.note(/** @type {Request} */ (params)));
    tab.on('Network.loadingFinished', ({ requestId }) => this.close(requestId));
    tab.on('Network.loadingFailed', ({ requestId }) => this.close(requestId));
    tab.on('Network.responseReceived', ({ requestId, type }) => this.hear(requestId, type === 'Fetch'));
    tab.on('Network.dataReceived', ({ requestId }) => this.hear(requestId, this.bodies.has(requestId)));
    await tab.send('Network.enable');
  }

  /**
   * The response to a `fetch` whose body the page does not read has no end: it is waited for as long as parts of it come.
   * @param {string} requestId
   */
  awaitBody(requestId) {
    clearTimeout(this.bodies.get(requestId));
    this.bodies.set(requestId, setTimeout(() => this.close(requestId), LONGEST_PAUSE).unref());
  }

  /**
   * A request begins.
   * @param {Request} given
   */
  note(given) {
    const { type, request } = given;
    if (this.isAwaited(given)) this.open.add(given.requestId);
    this.hear(given.requestId);
    // the browser itself requests the icon of a page
    if (type !== 'Other' && !/^(data|blob|about):/.test(request.url) && !isHold(request.url)) this.asked.push(requestText(request));
  }

  /**
   * There is news of a request: it is alive, so its patience starts again.
   * @param {string} requestId of which there is news
   * @param {boolean} [isBody] whether parts of its body come
   */
  hear(requestId, isBody = false) {
    if (isBody) this.awaitBody(requestId);
    if (!this.open.has(requestId)) return;
    this.lastNews = Date.now();
    this.news.set(requestId, this.lastNews);
  }

  /**
   * A request is over, or counts no longer.
   * @param {string} requestId
   */
  close(requestId) {
    clearTimeout(this.bodies.get(requestId));
    this.bodies.delete(requestId);
    this.hear(requestId);
    this.open.delete(requestId);
    this.news.delete(requestId);
  }

  /** The open requests that may still be work of the page; the others are long polls. */
  working(now = Date.now()) {
    /** @param {string} one */
    const isWork = (one) => {
      const quiet = now - (this.news.get(one) || 0) - this.delay;
      return quiet < PATIENCE || (quiet < LONGEST_PATIENCE && now - this.lastNews - this.delay < PATIENCE);
    };
    return new Set([...this.open].filter(isWork));
  }

  /**
   * A stream has no end, and the end of a worker's requests (those without a loader) is not reported to the page's session.
   * @param {Request} request
   */
  isAwaited({ type, loaderId, request }) {
    return type !== 'EventSource' && type !== 'WebSocket' && loaderId !== '' && !isHold(request.url);
  }
}

module.exports = { NetworkLog };
