'use strict';
// Refuses requests that may change something on a server.

const { mayChange, requestText } = require('../changing.js');

/** @typedef {import('./paused.js').Paused} Paused */

/** An interceptor: `Responses` calls `passRequest` for each request of a replay without `--yes`. */
class ChangesGuard {
  /**
   * @param {import('../tab.js').Tab} tab
   * @param {import('../folder.js').Folder|null} folder the served one, in which nothing changes
   */
  constructor(tab, folder) {
    this.tab = tab;
    this.folder = folder;
    /**
     * The requests that were not sent, as `METHOD ADDRESS`.
     * @type {string[]}
     */
    this.refused = [];
  }

  /**
   * Refuses a request that may change something.
   * @param {Paused} event
   */
  async passRequest({ requestId, request }) {
    if (!mayChange(request.method) || this.folder?.has(request.url)) return false;
    this.refused.push(requestText(request));
    await this.tab.send('Fetch.failRequest', { requestId, errorReason: 'BlockedByClient' });
    return true;
  }
}

module.exports = { ChangesGuard };
