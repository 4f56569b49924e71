'use strict';
// Scripts and images that a replay has put into a page, so that the parser waits at a place of the page, or its load does: they do nothing, and come when the
// replay releases them.

const { HOLD_NAME } = require('../content-policy.js');

/**
 * @typedef {import('./paused.js').Paused} Paused
 * @typedef {import('./paused.js').Holds} Holds
 */

const HOLD_ADDRESS = new RegExp(`/${HOLD_NAME}\\?(\\d+)$`);
/**
 * Called by network-log.js.
 * @param {string} address
 */
const isHold = (address) => HOLD_ADDRESS.test(address);
const CODE = '__er.removeHold(document.currentScript)';

/** An interceptor: `Responses` and BrowserRecorder call `passRequest`. */
class HoldScripts {
  /**
   * @param {import('../tab.js').Tab} tab
   * @param {Holds|null} holds
   */
  constructor(tab, holds) {
    this.tab = tab;
    this.holds = holds;
  }

  /**
   * Answers a request for a script or an image of the replay, once it is released.
   * @param {Paused} event
   */
  async passRequest(event) {
    const found = HOLD_ADDRESS.exec(event.request.url);
    if (!found) return false;
    await this.holds?.holdFor?.(Number(found[1]), event);
    const responseHeaders = [{ name: 'content-type', value: 'text/javascript' }];
    await this.tab.send('Fetch.fulfillRequest', { requestId: event.requestId, responseCode: 200, responseHeaders, body: Buffer.from(CODE).toString('base64') });
    return true;
  }
}

module.exports = { HoldScripts, isHold };
