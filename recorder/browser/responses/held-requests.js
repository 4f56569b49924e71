'use strict';
// Requests whose responses a replay holds back. The response is delayed until the replay releases it, so that a race comes in the other order.

/**
 * @typedef {import('./paused.js').Paused} Paused
 * @typedef {import('./paused.js').Holds} Holds
 */

/** Takes note of the requests, and holds the responses: the server has been asked, and has answered. Made by browser/responses.js. */
class HeldRequests {
  /** @param {Holds} holds */
  constructor(holds) {
    this.holds = holds;
  }

  /** @param {Paused} event */
  passRequest(event) {
    this.holds.meets?.(event);
    return false;
  }

  /** @param {Paused} event */
  async passResponse(event) {
    if (this.holds.isMet(event)) await this.holds.hold?.(event);
    return false;
  }
}

/** Holds a request for a file of the folder, which has no response stage, before it is answered. Made by browser/responses.js. */
class HeldFiles {
  /**
   * @param {Holds} holds
   * @param {import('../folder.js').Folder} folder
   */
  constructor(holds, folder) {
    this.holds = holds;
    this.folder = folder;
  }

  /** @param {Paused} event */
  async passRequest(event) {
    if (this.folder.has(event.request.url) && this.holds.isMet(event)) await this.holds.hold?.(event);
    return false;
  }
}

module.exports = { HeldRequests, HeldFiles };
