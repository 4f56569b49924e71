'use strict';
// The permission of a page of this machine to reach servers of this machine and of its network. Chromium would ask the user.

const { isOfThisMachine } = require('./changing.js');

/**
 * Allows a tab's page the local network, if it is of this machine. The browser does not know that of an instrumented copy, as it would of the page itself.
 * Called by driven/browser-recorder.js.
 * @param {import('./tab.js').Tab} tab
 * @param {string} address of the page
 */
async function allowLocalNetwork(tab, address) {
  if (isOfThisMachine(address)) await tab.allowLocalNetwork(new URL(address).origin);
}

module.exports = { allowLocalNetwork };
