'use strict';
// A Chromium that someone else started and drives, with --remote-debugging-port: its protocol over a WebSocket, and its first tab. `er_record --attach`
// connects to it.

const http = require('node:http');
const { withoutCredentials } = require('../common/address.js');
const { printErrorOnce } = require('../common/output.js');
const { shown } = require('../common/shown.js');
const { Protocol, BrowserFault } = require('./protocol.js');
const { Tab } = require('./tab.js');
const { WebSocketClient } = require('./web-socket.js');

/** @typedef {import('./web-socket.js').Endpoint} Endpoint */

/** Milliseconds, and characters: whoever listens at the port need not be a browser. */
const LONGEST_ANSWER = 5000;
const LARGEST_ANSWER = 1 << 20;
/** Who debugs a browser has all that it has, so only one of this machine is asked. */
const LOOPBACK = /^(?:localhost|127(?:\.\d{1,3}){3}|::1)$/;

/**
 * The endpoint of HOST:PORT, or null if it is not one of this machine. Called by options/values.js.
 * @param {string|undefined} text
 * @returns {Endpoint|null}
 */
function parseEndpoint(text) {
  const found = /^(?:\[([^\]]+)\]|([^:\s]+)):(\d{1,5})$/.exec(text || '');
  if (!found || Number(found[3]) < 1 || Number(found[3]) > 65535) return null;
  const host = (found[1] || found[2]).toLowerCase();
  return LOOPBACK.test(host) ? { host: host === 'localhost' ? '127.0.0.1' : host, port: Number(found[3]) } : null;
}

/** @param {NodeJS.ErrnoException} fault */
const connectFault = (fault) => new BrowserFault(fault.code === 'ECONNREFUSED' ? 'no browser listens at this port: start it with --remote-debugging-port' : fault.message);

/**
 * A JSON answer of the browser's own small web server.
 * @param {Endpoint} endpoint
 * @param {string} path
 * @returns {Promise<unknown>}
 */
function request({ host, port }, path) {
  return new Promise((resolve, reject) => {
    const asked = http.get({ host, port, path, timeout: LONGEST_ANSWER }, (response) => {
      let text = '';
      response.setEncoding('utf8');
      response.on('data', (piece) => {
        text += piece;
        if (text.length > LARGEST_ANSWER) asked.destroy(new Error('the program at this port is not a browser with a DevTools port'));
      });
      response.on('end', () => {
        try {
          resolve(JSON.parse(text));
        } catch {
          // no JSON
          reject(new BrowserFault('the program at this port is not a browser with a DevTools port'));
        }
      });
    });
    asked.on('timeout', () => asked.destroy(new Error('no answer')));
    asked.on('error', (fault) => reject(connectFault(fault)));
  });
}

/**
 * The path of the browser's WebSocket.
 * @param {Endpoint} endpoint
 */
async function pathOfSocket(endpoint) {
  const version = /** @type {{webSocketDebuggerUrl?: unknown}|null} */ (await request(endpoint, '/json/version'));
  const address = version?.webSocketDebuggerUrl;
  if (typeof address !== 'string' || !address) throw new BrowserFault('the program at this port is not a browser with a DevTools port');
  return new URL(address).pathname;
}

/** Made by driven/endpoint.js, driven/main.js and recording/attached-recorder.js. */
class AttachedChromium extends Protocol {
  constructor() {
    super();
    /** @type {WebSocketClient|null} */
    this.socket = null;
  }

  /**
   * Connects to a browser that runs. Fails with a BrowserFault.
   * @param {Endpoint} endpoint
   */
  static async connect(endpoint) {
    const browser = new AttachedChromium();
    const path = await pathOfSocket(endpoint);
    try {
      browser.socket = await WebSocketClient.open({ ...endpoint, path }, LONGEST_ANSWER);
    } catch (fault) {
      throw new BrowserFault(/** @type {Error} */ (fault).message);
    }
    browser.socket.on('message', (text) => browser.receiveText(text));
    browser.socket.on('close', (why) => browser.end(why));
    return browser;
  }

  /**
   * Sends a message of the protocol.
   * @param {string} text
   */
  write(text) {
    this.socket?.send(text);
  }

  /** The browser is another's: it stays. */
  close() {
    this.socket?.shut('closed');
  }
}

/** The first tab of a browser, as it is. Made by recording/attached-recorder.js. */
class AttachedTab extends Tab {
  /**
   * The session of the browser's first tab. Chromium's list has no order, so a line names the tab if there are several.
   * @param {Protocol} browser
   */
  static async first(browser) {
    const { targetInfos } = await browser.send('Target.getTargets');
    const pages = /** @type {import('./protocol.js').ProtocolObject[]} */ (targetInfos).filter(({ type, url }) => type === 'page' && !url.startsWith('devtools:'));
    const page = pages.pop();
    if (!page) throw new BrowserFault('the browser has no tab');
    if (pages.length) printErrorOnce(`The browser has ${pages.length + 1} tabs: the one at ${shown(withoutCredentials(page.url))} is recorded.`);
    const { sessionId } = await browser.send('Target.attachToTarget', { targetId: page.targetId, flatten: true });
    return new AttachedTab(browser, { contextId: page.browserContextId, targetId: page.targetId, sessionId });
  }

  /** The tab stays; what the recorder set in its session goes with the session. */
  async close() {
    this.removeListeners();
    await this.browser.send('Target.detachFromTarget', { sessionId: this.sessionId });
  }

  /**
   * Windows that the page opens are the driver's: they are counted.
   * @param {() => void} note
   */
  async closeOpenedWindows(note) {
    this.onAny('Target.targetCreated', ({ targetInfo }) => {
      if (targetInfo.type === 'page' && targetInfo.openerId === this.targetId) note();
    });
    await this.browser.send('Target.setDiscoverTargets', { discover: true });
  }
}

module.exports = { AttachedChromium, AttachedTab, parseEndpoint };
