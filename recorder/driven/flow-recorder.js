'use strict';
// Records a user flow that loads several pages: a browser of its own, in which each page load is recorded, and a user who does the steps.

const { Chromium } = require('../browser/chromium.js');
const { originOf } = require('../common/address.js');
const { sleep } = require('../common/time.js');
const { NetworkLog } = require('../browser/responses/network-log.js');
const { OwnOrigin } = require('../browser/responses/own-origin.js');
const { PageSteps } = require('../browser/responses/page-steps.js');
const { whyNoTarget } = require('../browser/input/fields.js');
const { Tab, WINDOW } = require('../browser/tab.js');
const { User } = require('../browser/user.js');
const { leadsOn } = require('../options/flow.js');
const { signIn } = require('../recording/signed-in.js');
const { BrowserRecorder } = require('./browser-recorder.js');

/** @typedef {import('../options/step.js').Step} Step */
/** @typedef {import('../browser/user.js').Outcome} Outcome */
/** @typedef {import('../recording/options.js').RecordingOptions} RecordingOptions */

const POLL = 50;
/** In milliseconds: what a step waits for, if the flow does not say; a page without news is quiet; what never is quiet is waited for so long. */
const LONGEST_SEARCH = 5000;
const QUIET = 400;
const LONGEST_UNREST = 3000;
/** So many seconds a load is recorded at most: it goes on while the user does its steps. */
const LONGEST_LOAD = 600;

/** @type {(why: string|null) => Outcome} */
const notDone = (why) => ({ isDone: false, why });

/** Made by page-flow.js for `er_page --flow`. */
class FlowRecorder {
  /**
   * @param {Step[]} steps the first one loads a page
   * @param {RecordingOptions} options
   * @param {import('./trace-folder.js').TraceFolder} folder
   * @param {(text: string) => void} complain
   */
  constructor(steps, options, folder, complain) {
    this.steps = steps;
    this.options = options;
    this.folder = folder;
    this.complain = complain;
    /** How many steps were tried. */
    this.tried = 0;
    /** @type {string[]} the steps that could not be done, as lines */
    this.failures = [];
    this.network = new NetworkLog();
    this.tab = /** @type {Tab|null} */ (null);
    this.recorder = /** @type {BrowserRecorder|null} */ (null);
    /** How often another page, or another address of the page, has come. */
    this.changes = 0;
    this.isLoaded = false;
    /** The HTTP status of the page that comes, or 0. */
    this.pageStatus = 0;
    this.stop = () => {};
    /** @type {Promise<void>} */
    this.stopped = new Promise((resolve) => { this.stop = resolve; });
    this.isStopped = false;
  }

  /** Ends the flow. What was recorded so far is kept. */
  interrupt() {
    this.isStopped = true;
    this.stop();
  }

  /** Records the flow. Fails with a BrowserFault. */
  async record() {
    const browser = new Chromium();
    try {
      await Promise.race([this.recordIn(browser), this.stopped]);
    } finally {
      await browser.close();
      await this.recorder?.hasEnded;
    }
  }

  /**
   * Starts the browser with a recorder of its tabs, and does the steps.
   * @param {Chromium} browser
   */
  async recordIn(browser) {
    const { options } = this;
    const { viewport, ignoresCertificateErrors, userDataDir, isHeaded } = options;
    browser.start({ ...viewport || WINDOW, ignoresCertificateErrors, userDataDir, isHeaded });
    await browser.hasStarted();
    this.recorder = new BrowserRecorder(browser, this.folder, { ...options, time: LONGEST_LOAD, isDriven: true }, this.complain);
    await this.recorder.start();
    this.tab = await Tab.open(browser, viewport || WINDOW, !!userDataDir);
    await this.listen(this.tab);
    await this.answerServers(this.tab);
    await signIn(this.tab, this.steps[0].target, options);
    await this.doSteps(new User(this.tab));
    await this.waitForQuiet();
  }

  /**
   * Watches the tab that the user is in.
   * @param {Tab} tab
   */
  async listen(tab) {
    tab.on('Page.frameNavigated', ({ frame }) => { if (!frame.parentId) this.noteChange(false); });
    tab.on('Page.navigatedWithinDocument', ({ frameId }) => { if (frameId === tab.targetId) this.noteChange(true); });
    tab.on('Page.loadEventFired', () => { this.isLoaded = true; });
    tab.on('Network.responseReceived', ({ type, frameId, response }) => { if (type === 'Document' && frameId === tab.targetId) this.pageStatus = response.status; });
    tab.on('Page.javascriptDialogOpening', () => { tab.send('Page.handleJavaScriptDialog', { accept: true }).catch(() => {}); }); // it was closed already
    await tab.send('Page.enable');
    await this.network.start(tab);
  }

  /**
   * The page has changed, or its address.
   * @param {boolean} isOfPage whether the page is the same
   */
  noteChange(isOfPage) {
    this.changes++;
    if (isOfPage) return;
    this.isLoaded = false;
    this.network.open.clear();
  }

  /**
   * What only the origin of the first page gets: headers, a user and a password. A session of its own adds these to requests.
   * @param {Tab} tab
   */
  async answerServers({ browser, contextId, targetId }) {
    const { headers, credentials } = this.options;
    if (!headers.length && !credentials) return;
    const { sessionId } = await browser.send('Target.attachToTarget', { targetId, flatten: true });
    const channel = new Tab(browser, { contextId, targetId, sessionId });
    const own = new OwnOrigin(channel, new PageSteps(channel, null), { headers, credentials });
    own.origin = originOf(this.steps[0].target);
    channel.on('Fetch.requestPaused', (event) => {
      const { requestId } = event;
      channel.send('Fetch.continueRequest', { requestId, ...own.changes(/** @type {import('../browser/responses/paused.js').Paused} */ (event)) }).catch(() => {}); // the page gave it up
    });
    channel.on('Fetch.authRequired', (event) => {
      own.answerChallenge(/** @type {import('../browser/responses/own-origin.js').Challenge} */ (event)).catch(() => {}); // the page gave it up
    });
    await channel.send('Fetch.enable', { patterns: [{ urlPattern: '*', requestStage: 'Request' }], handleAuthRequests: true });
  }

  // ---- steps

  /**
   * Does the steps in their order, until one fails (without --keep-going) or a signal comes.
   * @param {User} user
   */
  async doSteps(user) {
    for (const step of this.steps) {
      if (this.isStopped) return;
      this.tried++;
      const outcome = step.kind === 'navigate' ? await this.navigate(step) : await this.doAtPage(user, step);
      await this.tab?.keepCookies();
      if (outcome.isDone) continue;
      const why = outcome.why ?? await this.whyNoTarget(user, step);
      this.failures.push(`${step.from}, ${step.said}: ${why}`);
      if (!this.options.keepsGoing) return;
    }
  }

  /**
   * Loads a page, as a step of the flow says.
   * @param {Step} step
   */
  async navigate({ target }) {
    const { time } = this.options;
    this.pageStatus = 0;
    this.isLoaded = false;
    const call = this.tab?.send('Page.navigate', { url: target }, time * 1000);
    const { errorText, loaderId } = await Promise.resolve(call).catch(() => ({ errorText: `no answer came within ${time} s`, loaderId: '' })) || {};
    if (errorText) return notDone(`the page did not load: ${errorText}`);
    if (this.pageStatus >= 400) return notDone(`the page did not load: the server answered ${this.pageStatus}`);
    if (!loaderId) this.isLoaded = true; // a step inside of the page
    await this.waitForLoad();
    return this.isLoaded ? /** @type {Outcome} */ ({ isDone: true }) : notDone(`the page was not loaded within ${time} s`);
  }

  /**
   * Does a step at the page, and waits for the page to which it leads.
   * @param {User} user
   * @param {Step} step
   */
  async doAtPage(user, step) {
    const longest = step.given?.timeout || LONGEST_SEARCH;
    await user.waitFor(step, Date.now() + longest);
    const { changes } = this;
    const outcome = await user.act(step);
    if (!outcome.isDone || !leadsOn(step)) return outcome;
    for (const until = Date.now() + longest; this.changes === changes && Date.now() < until;) await sleep(POLL);
    if (this.changes === changes) return notDone(`no other page came, after ${longest / 1000} s`);
    await this.waitForLoad();
    return outcome;
  }

  /**
   * Why a step found nothing to act at, in words.
   * @param {User} user
   * @param {Step} step
   */
  async whyNoTarget(user, { where, given }) {
    const why = where ? await user.call(whyNoTarget, where, (given?.timeout || LONGEST_SEARCH) / 1000) : null;
    return why ?? 'the page did not answer';
  }

  // ---- rest

  /** Waits until the page is loaded and quiet. */
  async waitForLoad() {
    for (const until = Date.now() + this.options.time * 1000; !this.isLoaded && Date.now() < until;) await sleep(POLL);
    await this.waitForQuiet();
  }

  /** Waits until no request is open and nothing came of the page for a while. */
  async waitForQuiet() {
    const start = Date.now();
    let seen = -1;
    let quietSince = start;
    while (Date.now() - quietSince < QUIET && (Date.now() - start < LONGEST_UNREST || this.network.working().size > 0) && Date.now() - start < this.options.time * 1000) {
      const actions = [...this.recorder?.loads || []].reduce((all, { intake }) => all + intake.actions, 0);
      if (actions !== seen || this.network.working().size) quietSince = Date.now();
      seen = actions;
      await sleep(POLL);
    }
  }
}

module.exports = { FlowRecorder };
