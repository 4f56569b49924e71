'use strict';
// What only the page's own origin gets: headers of the user's, and a user's name and password. HTTP basic authentication (`--http-credentials`) and `--header`,
// as `Authorization`: no other server, as a CDN, gets these credentials.

const { originOf } = require('../../common/address.js');

/**
 * @typedef {import('./paused.js').Paused} Paused
 * @typedef {import('../../common/address.js').Credentials} Credentials
 * @typedef {{requestId: string, request: {url: string}, authChallenge: {source?: string, origin: string}}} Challenge an event `Fetch.authRequired`
 */

/** An interceptor: `Responses` and the recorder of a flow call `passRequest` for each request. */
class OwnOrigin {
  /**
   * @param {import('../tab.js').Tab} tab
   * @param {import('./page-steps.js').PageSteps} steps
   * @param {{headers: [name: string, value: string][], credentials: Credentials|null}} options
   */
  constructor(tab, steps, { headers, credentials }) {
    this.tab = tab;
    this.steps = steps;
    this.headers = headers;
    this.credentials = credentials;
    /**
     * That of the page's first request.
     * @type {string|null}
     */
    this.origin = null;
    /**
     * The requests that had the credentials already: these are wrong.
     * @type {Set<string>}
     */
    this.answered = new Set();
  }

  /**
   * The first request of the page decides which origin is its own.
   * @param {Paused} event
   */
  passRequest(event) {
    if (this.origin === null && this.steps.isOfPage(event)) this.origin = originOf(event.request.url);
    return false;
  }

  /** @param {string} address */
  isOwn(address) {
    return this.origin !== null && originOf(address) === this.origin;
  }

  /**
   * What of a request changes as it goes on: the user's headers in place of its own of these names; another origin, as after a redirect, gets none. Called by
   * browser/responses.js and driven/flow-recorder.js.
   * @param {Paused} event
   * @returns {{headers?: import('./paused.js').Header[]}}
   */
  changes({ request }) {
    if (!this.headers.length) return {};
    const names = new Set(this.headers.map(([name]) => name.toLowerCase()));
    const given = Object.entries(request.headers || {});
    const others = given.filter(([name, value]) => !names.has(name.toLowerCase()) || (!this.isOwn(request.url) && !this.isOfUser(name, value)));
    const own = this.isOwn(request.url) ? this.headers : [];
    if (!own.length && others.length === given.length) return {};
    return { headers: [...others, ...own].map(([name, value]) => ({ name, value })) };
  }

  /**
   * Whether a header is one that the user gave for the page's origin.
   * @param {string} name
   * @param {string} value
   */
  isOfUser(name, value) {
    return this.headers.some(([own, text]) => own.toLowerCase() === name.toLowerCase() && text === value);
  }

  /**
   * Answers a server that wants a user's name. Without an answer the request would stay open. Called by browser/responses.js and driven/flow-recorder.js.
   * @param {Challenge} challenge
   */
  async answerChallenge({ requestId, request, authChallenge }) {
    const { credentials } = this;
    const isGiven = credentials !== null && authChallenge.source !== 'Proxy' && this.isOwn(request.url) && !this.answered.has(requestId);
    this.answered.add(requestId);
    const authChallengeResponse = isGiven && credentials
      ? { response: 'ProvideCredentials', username: credentials.user, password: credentials.password }
      : { response: 'CancelAuth' };
    await this.tab.send('Fetch.continueWithAuth', { requestId, authChallengeResponse });
  }
}

module.exports = { OwnOrigin };
