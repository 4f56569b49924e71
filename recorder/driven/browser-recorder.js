'use strict';
// Records each page load of each tab of a browser that another program drives: for er_browser (main.js) and flows over several pages (flow-recorder.js). Tabs,
// windows and pages of a test run (Playwright, Puppeteer, Selenium) are its targets. The driver may kill the browser.

const complaints = require('./complaints.js');
const { addressKey } = require('./hold-plan.js');
const { Load } = require('./load.js');
const { LoadSteering } = require('./load-steering.js');
const { SharedSources } = require('./load-sources.js');
const { DrivenTab } = require('./driven-tab.js');
const { OpenedWindow } = require('./opened-window.js');
const { browserFacts } = require('../recording/session.js');
const { ownNames, pageScript } = require('../recording/page-script.js');
const { allowLocalNetwork } = require('../browser/local-network.js');
const { HoldScripts } = require('../browser/responses/hold-scripts.js');
const { withoutCredentials } = require('../common/address.js');
const { Pause } = require('./pause.js');
const { Paused, isPage } = require('./paused.js');
const { sleep } = require('../common/time.js');

/** In milliseconds: how often it looks for loads that are due to be written; for a tab that must come; until when that may take, also at the start. */
const POLL = 250;
const POLL_MEETING = 2;
const LONGEST_MEETING = 2000;
const LONGEST_START = 10000;
const ONLY_PAGES = [{ type: 'page' }, { exclude: true }];
const ONLY_SERVICE_WORKERS = [{ type: 'service_worker' }, { exclude: true }];

/** @typedef {import('./driven-tab.js').ProtocolEvent} ProtocolEvent */
/** @typedef {import('./load.js').Load} LoadOfPage */

/** Made by main.js for a driver's browser, and by flow-recorder.js for its own. */
class BrowserRecorder {
  /**
   * @param {import('../browser/protocol.js').Protocol} browser
   * @param {import('./trace-folder.js').TraceFolder} folder
   * @param {import('./load.js').Options & {depth: 'globals'|'objects', keepsAll: boolean}} options as parseOptions gives them
   * @param {(text: string) => void} complain
   * @param {import('./hold-plan.js').Plan|null} plan what this run of the suite holds back
   */
  constructor(browser, folder, options, complain = complaints.complain, plan = null) {
    this.browser = browser;
    this.complain = complain;
    this.folder = folder;
    this.options = options;
    this.plan = plan;
    /** @type {Map<string, number>} how many loads each address had */
    this.counts = new Map();
    this.ownNames = ownNames();
    this.shared = new SharedSources(options.depth, options.keepsAll);
    this.source = this.sourceWith(null);
    /** @type {Map<string, DrivenTab>} by the number of the target, which is that of its main frame */
    this.tabs = new Map();
    /** @type {Map<string, DrivenTab>} */
    this.sessions = new Map();
    /** @type {Set<LoadOfPage>} */
    this.loads = new Set();
    this.lastNumber = 0;
    this.written = 0;
    this.hasFacts = false;
    this.paused = new Paused(browser);
    this.pause = new Pause();
    /** @type {NodeJS.Timeout|undefined} */
    this.timer = undefined;
    /** Recordings are written one after the other. */
    this.writing = Promise.resolve();
    this.hasEnded = new Promise((resolve) => { browser.once('gone', () => resolve(this.finish())); });
  }

  /** @param {string[]|null} handlerOwners */
  sourceWith(handlerOwners) {
    return pageScript(handlerOwners, { ...this.options, ...this.ownNames, handlerNames: [...this.shared.handlerNames], holds: [], isDriven: true });
  }

  async start() {
    const { browser } = this;
    browser.on('Target.attachedToTarget', (params) => this.meet(params));
    browser.on('Target.detachedFromTarget', ({ sessionId }) => this.part(sessionId));
    browser.on('Target.targetCreated', ({ targetInfo }) => this.meetWorker(targetInfo));
    browser.on('Fetch.requestPaused', (event, sessionId) => this.pass(event, sessionId).catch(() => this.paused.letPass(event)));
    for (const method of ['Page.frameNavigated', 'Page.documentOpened', 'Runtime.executionContextsCleared', 'Runtime.executionContextCreated', 'Runtime.bindingCalled',
      'Runtime.exceptionThrown', 'Inspector.targetCrashed']) {
      browser.on(method, (params, sessionId) => this.sessions.get(sessionId)?.take(method, params));
    }
    this.timer = setInterval(() => this.writeDue(), POLL);
    // no document comes before its tab is set up
    await browser.send('Fetch.enable', { patterns: [{ urlPattern: '*', requestStage: 'Request', resourceType: 'Document' }] });
    await browser.send('Target.setAutoAttach', { autoAttach: true, waitForDebuggerOnStart: true, flatten: true, filter: ONLY_PAGES });
    await browser.send('Target.setDiscoverTargets', { discover: true, filter: ONLY_SERVICE_WORKERS });
  }

  /** Loads pages in the tabs with which the browser has started. */
  async open(/** @type {string[]} */ pages) {
    for (const until = Date.now() + LONGEST_START; this.tabs.size < pages.length && Date.now() < until;) await sleep(POLL_MEETING);
    const tabs = [...this.tabs.values()];
    await Promise.all(pages.map((url, k) => (tabs[k] ? tabs[k].send('Page.navigate', { url }) : this.browser.send('Target.createTarget', { url })).catch(() => {}))); // the browser may have ended
  }

  /** A target came: a page is a tab, which is set up before its first document. Prerendered pages and other subtypes go on unrecorded. */
  meet(/** @type {ProtocolEvent} */ { sessionId, targetInfo, waitingForDebugger }) {
    if (this.tabs.has(targetInfo.targetId)) return; // a session that the tab asked for
    if (targetInfo.subtype) {
      this.browser.send('Runtime.runIfWaitingForDebugger', {}, sessionId).catch(() => {}); // it has gone
      return;
    }
    const tab = new DrivenTab(this, targetInfo, sessionId);
    this.tabs.set(targetInfo.targetId, tab);
    this.sessions.set(sessionId, tab);
    tab.setUp(waitingForDebugger);
  }

  /** What a service worker answers comes to no session of a page. */
  meetWorker(/** @type {{type: string, url: string}} */ { type, url }) {
    if (type !== 'service_worker' || !/^https?:/.test(url)) return;
    this.complain(`not recorded: the accesses of scripts that a service worker answers (${withoutCredentials(url)}); a suite that blocks service workers has them`);
  }

  /**
   * A tab is closed: its load is over.
   * @param {string} sessionId
   */
  part(sessionId) {
    const tab = this.sessions.get(sessionId);
    this.sessions.delete(sessionId);
    if (!tab || tab.sessionId !== sessionId) return;
    this.tabs.delete(tab.targetId);
    tab.endLoad('the tab was closed');
  }

  // ---- requests and responses

  /**
   * What another session of this process has paused, that session answers.
   * @param {ProtocolEvent} event
   * @param {string|undefined} sessionId
   */
  async pass(event, sessionId) {
    if (sessionId && !this.sessions.has(sessionId)) return;
    this.pause.note();
    this.paused.note(/** @type {import('./paused.js').PausedEvent} */ (event), sessionId);
    const tab = sessionId ? this.sessions.get(sessionId) : this.tabs.get(event.frameId) || await this.tabAt(event.frameId);
    const isResponse = event.responseStatusCode !== undefined || event.responseErrorReason !== undefined;
    if (isResponse) await tab?.steering()?.holdMet(/** @type {import('../browser/responses/paused.js').Paused} */ (event));
    if (!isResponse && sessionId) await this.passOwnRequest(event, tab);
    else if (!isResponse) await this.passRequest(event, tab);
    else await this.passResponse(event, tab, !sessionId);
  }

  /**
   * The tab of a frame. An opened window can request its page before the browser has reported the window. A frame inside of a page is not a tab.
   * @param {string} frameId
   */
  async tabAt(frameId) {
    /** @type {ProtocolEvent} */
    const { targetInfo } = await this.browser.send('Target.getTargetInfo', { targetId: frameId }).catch(() => ({})); // it has gone
    if (targetInfo?.type !== 'page' || targetInfo.subtype) return undefined;
    for (const until = Date.now() + LONGEST_MEETING; !this.tabs.has(frameId) && Date.now() < until;) await sleep(POLL_MEETING);
    return this.tabs.get(frameId);
  }

  /**
   * The request for a document waits until its tab is set up. The first one of a tab may have started before, so that the tab's own session does not see its
   * response: this one does.
   * @param {ProtocolEvent} event
   * @param {DrivenTab|undefined} tab
   */
  async passRequest(event, tab) {
    if (tab) await tab.waitForSetting();
    await this.paused.letPass(/** @type {import('./paused.js').PausedEvent} */ (event), tab && !tab.hasShown ? { interceptResponse: true } : {});
  }

  /**
   * The request of a page that can hold its response back, or for what its parser waits for.
   * @param {any} event `Fetch.requestPaused`: what takes it has types of its own
   * @param {DrivenTab|undefined} tab
   */
  async passOwnRequest(event, tab) {
    const steering = tab?.steering() || null;
    if (await new HoldScripts(this.paused, steering).passRequest(event)) return;
    steering?.meets(event);
    await this.paused.letPass(event);
  }

  /**
   * Passes a paused response to the load to which it belongs.
   * @param {any} event `Fetch.requestPaused`, which a driver may have answered in any way
   * @param {DrivenTab|undefined} tab
   * @param {boolean} isOfBrowser whether it was paused in the browser's own session
   */
  async passResponse(event, tab, isOfBrowser) {
    const isDocument = event.resourceType === 'Document';
    const isMarked = isDocument && tab && !isOfBrowser && tab.hasMarked(event);
    const load = tab && !isMarked && (!isDocument || isPage(event)) ? tab.loadOfResponse(event) : null;
    if (!tab || !load) {
      await this.paused.letPass(event);
      return;
    }
    if (isOfBrowser) tab.marked = event.request.url;
    if (isDocument && event.frameId === tab.targetId) await allowLocalNetwork(tab.tab, event.request.url);
    else if (load.steering) this.paused.before.set(event.requestId, async () => load.steering?.locate());
    await load.responses.passResponse(event);
  }

  // ---- loads

  /**
   * Makes the load of a page that a tab shows from now on.
   * @param {DrivenTab} tab
   * @param {string} given
   */
  beginLoad(tab, given) {
    const address = withoutCredentials(given);
    if (!this.hasFacts) this.askFacts(tab);
    const number = ++this.lastNumber;
    const nth = this.countLoad(address);
    const { folder, options, shared, paused: channel, plan } = this;
    const facts = { number, nth, address, tab: tab.targetId, opener: tab.openerId, test: folder.test, file: folder.fileFor(number, address) };
    const opened = this.openedIn(tab, address);
    const isHeld = plan?.load?.nth === nth && addressKey(plan.load.address) === addressKey(address);
    const steer = (/** @type {LoadOfPage} */ load) => (plan && isHeld ? new LoadSteering(plan, load, opened, { ownNames: this.ownNames, tab: tab.tab }) : null);
    const load = new Load({ ...facts, opened, options, shared, channel, isAsked: !!plan, steer });
    this.loads.add(load);
    return load;
  }

  /**
   * Which load of a page this is, in this browser.
   * @param {string} address
   */
  countLoad(address) {
    const key = addressKey(address);
    const nth = (this.counts.get(key) || 0) + 1;
    this.counts.set(key, nth);
    return nth;
  }

  /**
   * What starts the recorder in the first page of a tab, if no script could run before the page's.
   * @param {DrivenTab} tab
   * @param {string} address
   */
  openedIn(tab, address) {
    if (tab.hasShown || !(tab.openerId || tab.isLate)) return null;
    return new OpenedWindow(address, this.source);
  }

  /**
   * Ends a load, and writes it.
   * @param {LoadOfPage} load
   * @param {string} why
   */
  endLoad(load, why) {
    load.end(why);
    this.write(load);
  }

  /**
   * Reads the names of the browser, once: from then on there are fewer marks, and the script need not look for the names.
   * @param {DrivenTab} tab
   */
  askFacts(tab) {
    this.hasFacts = true;
    const evaluate = async () => {
      const { executionContextId } = await tab.send('Page.createIsolatedWorld', { frameId: tab.targetId });
      const { result } = await tab.send('Runtime.evaluate', { expression: `(${browserFacts})()`, returnByValue: true, contextId: executionContextId });
      this.shared.builtins.set(result.value.names);
      this.shared.handlerNames = new Set(result.value.handlerNames);
      this.source = this.sourceWith(result.value.handlerOwners);
    };
    evaluate().catch(() => { this.hasFacts = false; }); // the tab has gone: another one is asked
  }

  /** Writes the loads that no longer change. Called every POLL. */
  writeDue() {
    const now = Date.now();
    for (const load of this.loads) if (!load.isOver && load.isDue(now)) this.write(load);
  }

  /**
   * Writes a load after those before it.
   * @param {LoadOfPage} load
   */
  write(load) {
    const since = Date.now();
    this.writing = this.writing.then(() => this.pause.wait(since)).then(() => load.write()).catch((fault) => this.complain(`a page load is not recorded: ${complaints.faultInWords(fault)}`)).then(() => {
      if (load.isOver && this.loads.delete(load) && load.hasTrace()) this.written++;
    });
  }

  /** The browser has ended, or its driver has killed it: what came of each load is written. */
  async finish() {
    clearInterval(this.timer);
    this.pause.end();
    for (const load of this.loads) if (!load.isOver) this.endLoad(load, 'the browser ended');
    await this.writing;
  }
}

module.exports = { BrowserRecorder };
