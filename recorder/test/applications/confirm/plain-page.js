'use strict';
// A page of an application in a browser without the recorder: acts of a user, and requests that are held back as a slow server would.

const { Chromium } = require('../../../browser/chromium.js');
const { chordOf } = require('../../../browser/input/keyboard.js');
const { cssWhere } = require('../../../browser/input/selectors.js');
const { findTarget } = require('../../../browser/input/targets.js');
const { Tab } = require('../../../browser/tab.js');
const { User } = require('../../../browser/user.js');
const { sleep } = require('../../../common/time.js');
const { readStorageState } = require('../../../options/storage-state.js');
const { signIn } = require('../../../recording/signed-in.js');

const SIZE = { width: 1280, height: 900 };
const LONGEST_WAIT = 120000;
const SHORT = 50;
const SETTLED = 3000;

/** @typedef {{requestId: string, request: {url: string, postData?: string}}} Paused */

class PlainPage {
  /** @param {import('../types').Started} started */
  static async open({ page, given = [] }) {
    const browser = await Chromium.launch(SIZE);
    const own = new PlainPage(browser, await Tab.open(browser, SIZE), page);
    const [option, value] = given;
    if (option === '--storage-state') await signIn(own.tab, page, { storageState: readStorageState(option, value) });
    await own.tab.allowLocalNetwork(new URL(page).origin);
    await own.start();
    return own;
  }

  /**
   * @param {Chromium} browser
   * @param {Tab} tab
   * @param {string} address
   */
  constructor(browser, tab, address) {
    this.browser = browser;
    this.tab = tab;
    this.address = address;
    this.user = new User(tab);
    /** @type {RegExp|null} */
    this.held = null;
    /** @type {Paused[]} */
    this.waiting = [];
    /** @type {string[]} addresses of requests, with what they send */
    this.requests = [];
    /** @type {string[]} the types of the dialogs that came */
    this.dialogs = [];
    /** @type {Promise<unknown>} */
    this.atLoad = Promise.resolve();
  }

  async start() {
    this.tab.on('Fetch.requestPaused', (/** @type {any} */ paused) => this.take(paused));
    this.tab.on('Page.javascriptDialogOpening', (/** @type {any} */ { type }) => this.dismiss(type));
    await this.tab.send('Page.enable');
    await this.tab.send('Runtime.enable');
    await this.tab.send('Fetch.enable', { patterns: [{ urlPattern: '*' }] });
  }

  /** @param {Paused} paused */
  take(paused) {
    const { url, postData = '' } = paused.request;
    this.requests.push(`${url} ${postData}`);
    if (this.held?.test(`${url} ${postData}`)) this.waiting.push(paused);
    else this.pass(paused);
  }

  /** @param {Paused} paused */
  pass({ requestId }) {
    this.tab.send('Fetch.continueRequest', { requestId }).catch(() => {}); // the page has gone
  }

  /**
   * Requests that match get no answer from now on, until `release`.
   * @param {RegExp} pattern of the address, a blank and what is sent
   */
  hold(pattern) {
    this.held = pattern;
  }

  /** Requests that were held back get their answers, and none is held back from now on. */
  release() {
    this.held = null;
    this.waiting.splice(0).forEach((paused) => this.pass(paused));
  }

  /**
   * Notes a dialog, and answers it with no.
   * @param {string} type
   */
  dismiss(type) {
    this.dialogs.push(type);
    this.tab.send('Page.handleJavaScriptDialog', { accept: false }).catch(() => {}); // the page has gone
  }

  /** Loads the page, and waits for its end. */
  async load() {
    await this.go();
    await this.loaded();
  }

  /** Loads the page, and does not wait. */
  go() {
    this.atLoad = new Promise((resolve) => { this.tab.on('Page.loadEventFired', resolve); });
    return this.tab.send('Page.navigate', { url: this.address });
  }

  /** Waits for the end of the load. */
  async loaded() {
    await this.atLoad;
  }

  /**
   * Waits until an expression of the page is true.
   * @param {string} expression
   */
  async until(expression) {
    await waitFor(expression, () => this.tab.evaluate(`!!(${expression})`).catch(() => false));
  }

  /**
   * Waits until a request came.
   * @param {RegExp} pattern
   */
  async requested(pattern) {
    await waitFor(String(pattern), async () => this.requests.some((one) => pattern.test(one)));
  }

  /** Waits for what an answer that was held back does. */
  async settle() {
    await sleep(SETTLED);
  }

  /**
   * Waits until a request or a dialog came.
   * @param {RegExp} pattern
   */
  async requestedOrAsked(pattern) {
    await waitFor(`${pattern}, or a dialog`, async () => this.dialogs.length > 0 || this.requests.some((one) => pattern.test(one)));
  }

  /** @param {string} expression */
  see(expression) {
    return this.tab.evaluate(expression);
  }

  /** @param {string} selector */
  async click(selector) {
    await this.until(`document.querySelector(${JSON.stringify(selector)})`);
    const found = /** @type {any} */ (await this.user.call(findTarget, cssWhere(selector)));
    if (!found) throw new Error(`${selector} is not there`);
    await this.user.click(found);
  }

  /** @param {string} name of a key */
  async press(name) {
    const chord = chordOf(name);
    if (!chord) throw new Error(`no key: ${name}`);
    await this.user.press(chord);
  }

  /** @param {string} text */
  type(text) {
    return this.user.type(text);
  }

  close() {
    return this.browser.close();
  }
}

/**
 * @param {string} what
 * @param {() => Promise<boolean>} isSo
 */
async function waitFor(what, isSo) {
  const end = Date.now() + LONGEST_WAIT;
  while (!await isSo()) {
    if (Date.now() > end) throw new Error(`did not come: ${what}`);
    await sleep(SHORT);
  }
}

module.exports = { PlainPage };
