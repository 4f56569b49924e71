'use strict';
// What a tab has before its page loads, as of a user who is logged in: cookies, local storage, the name of the browser (user agent), the size of the view
// (viewport).
/* global localStorage, location, window */

/** @typedef {import('../options/storage-state.js').StorageState} StorageState */

/** The world of the script that fills the local storage: the page does not see its values. */
const WORLD = 'er-storage';

/**
 * Runs in each new document before its scripts: fills the local storage of its origin. Of a frame, what the page has stored meanwhile stays.
 * @param {StorageState['origins']} origins
 */
function fillStorage(origins) {
  const own = origins.find(({ origin }) => origin === location.origin);
  for (const { name, value } of own ? own.localStorage : []) {
    if (window === window.top || localStorage.getItem(name) === null) localStorage.setItem(name, value);
  }
}

/**
 * Called by driven/flow-recorder.js and recorder.js.
 * @param {import('../browser/tab.js').Tab} tab
 * @param {string} address of the page
 * @param {Partial<import('./options.js').RecordingOptions>} options
 */
async function signIn(tab, address, { cookies = [], storageState, userAgent, viewport }) {
  const own = cookies.map(([name, value]) => ({ name, value, url: address }));
  const all = [...storageState ? storageState.cookies : [], ...own];
  if (all.length) await tab.send('Network.setCookies', { cookies: all });
  if (viewport) await tab.send('Emulation.setDeviceMetricsOverride', { ...viewport, deviceScaleFactor: 0, mobile: false });
  if (userAgent) await tab.send('Emulation.setUserAgentOverride', { userAgent });
  if (storageState?.origins.length) {
    const source = `(${fillStorage})(${JSON.stringify(storageState.origins)})`;
    await tab.send('Page.addScriptToEvaluateOnNewDocument', { source, worldName: WORLD });
  }
}

module.exports = { signIn };
