'use strict';
// Steps to another page: the page is recorded that was asked for, also in a replay. If it navigates away, the request is refused, or `leaves` is called.
// Redirects, submitted forms (as of a login), links, `location = ..`, a `<meta>` refresh and reloads.

/** @typedef {import('./paused.js').Paused} Paused */

/** An interceptor: `Responses` and the recorder of a flow call `passRequest` for each request. */
class PageSteps {
  /**
   * @param {import('../tab.js').Tab} tab
   * @param {((event: Paused) => unknown)|null} leaves called in place of the refusal
   */
  constructor(tab, leaves) {
    this.tab = tab;
    this.leaves = leaves;
    this.mainFrame = '';
    this.navigations = 0;
    this.notFollowed = 0;
  }

  /**
   * Whether a request is for the page itself, and not for a frame.
   * @param {Paused} event
   */
  isOfPage({ resourceType, frameId }) {
    return resourceType === 'Document' && frameId === this.mainFrame;
  }

  /**
   * The answer to a request is another address, which the browser requests next. Called by folder-answers.js.
   * @param {Paused} event
   */
  expectRedirect(event) {
    if (this.isOfPage(event)) this.navigations--;
  }

  /**
   * Refuses a step to another page, or calls `leaves` for it.
   * @param {Paused} event
   */
  async passRequest(event) {
    if (!this.isOfPage(event) || event.redirectedRequestId) return false;
    this.navigations++;
    if (this.navigations <= 1) return false;
    if (this.leaves) {
      await this.leaves(event);
      return true;
    }
    this.notFollowed++;
    await this.tab.send('Fetch.failRequest', { requestId: event.requestId, errorReason: 'Aborted' });
    return true;
  }
}

module.exports = { PageSteps };
