'use strict';
// Records one page in a browser of its own: loads it, does what the user does, and waits until the page is at rest. `--time` limits how long it loads (the
// maximum duration): if the page takes too long, so that the load event does not come within it, the trace is written all the same, as not complete (`cut`;
// status: ../record.js). If the page cannot be reached (connection refused, unknown host, 404), `notLoaded` has the message.

const { Chromium } = require('../browser/chromium.js');
const { resolveAddress } = require('../browser/folder.js');
const { Tab, WINDOW } = require('../browser/tab.js');
const { User } = require('../browser/user.js');
const { credentialsOf, withoutCredentials } = require('../common/address.js');
const { printErrorOnce } = require('../common/output.js');
const { STATUS } = require('../common/status.js');
const { sleep } = require('../common/time.js');
const { markAhead } = require('../instrument/ahead.js');
const { warmUp, warmUpForInline } = require('../instrument/warm-up.js');
const { Acts } = require('./acts.js');
const { Rest } = require('./rest.js');
const { signIn } = require('./signed-in.js');
const { Session, RecordingFault, GRACE } = require('./session.js');

/** In milliseconds. */
const POLL = 50;
const LOAD_TIME = `(() => {
  const [navigation] = performance.getEntriesByType('navigation');
  return navigation && navigation.loadEventEnd ? navigation.loadEventEnd - navigation.startTime : null;
})()`;

/** @type {{[status: number]: string}} what to do about an HTTP status of the page */
const HINTS = {
  401: ' (it requires a user: --http-credentials USER:PASSWORD, or --header)',
  404: ' (no such page)',
  407: ' (a proxy requires a user)',
};

/**
 * What to look for if the browser reports an error of the network.
 * @type {[error: RegExp, hint: string][]}
 */
const NETWORK_HINTS = [
  [/^net::ERR_NAME_NOT_RESOLVED/, ' (no server of this name is known)'],
  [/^net::ERR_CONNECTION_REFUSED/, ' (no server listens at this address: is it started?)'],
  [/^net::ERR_UNSAFE_PORT/, ' (the browser requests nothing from this port: let the server listen at another one)'],
  [/^net::ERR_CERT_/, ' (the certificate is not valid: --ignore-certificate-errors loads the page)'],
];
/** @param {string} errorText */
const hintOf = (errorText) => NETWORK_HINTS.find(([error]) => error.test(errorText))?.[1] || '';

/** Made by each command that records: record.js, page-races.js, replay-race.js, and replay/runs.js for each further run. */
class Recorder extends Session {
  /**
   * @param {string} given a web address, a file or a folder; a user and a password in it go only to its server
   * @param {import('./session.js').SessionOptions} options
   */
  constructor(given, options) {
    super(withoutCredentials(given), { ...options, credentials: options.credentials || credentialsOf(given) });
    /** @type {Rest} */
    this.rest = new Rest(this);
    this.acts = new Acts(this, this.rest);
    /** @type {any} of a run that is compared: the page's state at its end, which only a replay writes and reads (replay/found/end-state.js) */
    this.end = null;
    /** When the browser was ready to load the page, and when the end was. */
    this.startTime = 0;
    this.endTime = 0;
  }

  /** What the user did, once there is a page. */
  get user() {
    return this.acts.user;
  }

  /** Whether the page went on for as long as it was waited for. */
  get isRestless() {
    return this.rest.isRestless;
  }

  /** Records the page. Fails with a RecordingFault; what was recorded until then is in the intake. Called by page-flow.js, record.js and replay/runs.js. */
  async record() {
    await this.runToEnd(() => this.recordToEnd(), () => this.closeBrowser());
  }

  /** Opens a browser, loads the page, does what the user does, and waits for rest. */
  async recordToEnd() {
    const { address, folder } = this.resolve();
    this.address = address;
    this.folder = folder;
    await this.openBrowser();
    await this.prepareTab();
    this.startTime = Date.now(); // the browser's own start does not count
    this.until = this.startTime + this.options.time * 1000;
    await this.withinTime(this.loadAndUse());
    await this.openTab().keepCookies();
    await this.options.whenOver?.(this);
  }

  /** The address to load, and the folder that is served for it, if it is a file. */
  resolve() {
    try {
      const resolved = resolveAddress(this.given, this.options.root, { fallback: this.options.fallback });
      if (resolved.warning) printErrorOnce(resolved.warning);
      return resolved;
    } catch (fault) {
      throw new RecordingFault(messageOf(fault), STATUS.noPage);
    }
  }

  // ---- the browser

  /** Starts the browser, or takes the one of the options, and opens a tab in it. */
  async openBrowser() {
    const given = this.options.browser;
    try {
      const browser = given || new Chromium();
      this.browser = browser;
      browser.once('gone', (why) => this.stop(new RecordingFault(`the browser has gone: ${why}`, STATUS.failed)));
      if (!given) await this.startBrowser(browser);
      this.tab = await Tab.open(browser, this.options.viewport || WINDOW, !!this.options.userDataDir);
      await this.allowLocalNetwork(this.address);
    } catch (fault) {
      throw new RecordingFault(`the browser could not be started: ${messageOf(fault)}`, STATUS.failed);
    }
  }

  /**
   * Starts the browser, and uses the time until its first answer for marking scripts ahead.
   * @param {Chromium} browser
   */
  async startBrowser(browser) {
    const { viewport, ignoresCertificateErrors, userDataDir, isHeaded } = this.options;
    browser.start({ ...viewport || WINDOW, ignoresCertificateErrors, userDataDir, isHeaded });
    if (!this.options.isRaw) this.prepareScripts();
    await browser.hasStarted();
  }

  /** Instruments scripts while the browser starts. */
  prepareScripts() {
    const { address, folder } = this;
    const marked = folder?.has(address) ? markAhead(this.sources, folder, address) : 0; // a server would get each request twice
    if (marked) warmUpForInline();
    else warmUp();
  }

  /** Prepares the tab before the page comes: the script of the recorder, and what signs in. */
  async prepareTab() {
    const holds = /** @type {import('../page/types').Hold[]|undefined} */ (this.steering?.forPage());
    await this.prepare({ holds, evaluate: (facts) => this.openTab().evaluate(facts) });
    await signIn(this.openTab(), this.address, this.options);
  }

  /** Closes the browser, or in a browser that stays the tab. */
  async closeBrowser() {
    if (this.options.browser || this.options.keepsBrowser) await this.tab?.close().catch(() => {}); // the browser has gone
    else if (this.browser instanceof Chromium) await this.browser.close();
  }

  /** The browser, if it stayed after the recording. Called by replay-race.js. */
  runningBrowser() {
    return this.browser instanceof Chromium ? this.browser : null;
  }

  /** Closes the browser if it stayed after the recording. Called by page-races.js and replay-race.js. */
  async closeKeptBrowser() {
    await this.runningBrowser()?.close();
  }

  // ---- the page

  /** The page comes, and the user acts. `isUsed` is false if the time was over before that. */
  async loadAndUse() {
    await this.load();
    this.isUsed = await this.useAndWait();
  }

  /** Loads the page. Fails with a RecordingFault if it does not load. */
  async load() {
    const { address, responses } = this;
    this.isLoaded = false;
    this.steering?.begin(this);
    const navigation = this.openTab().send('Page.navigate', { url: address }, this.options.time * 1000 + GRACE);
    const { errorText } = await Promise.race([navigation, this.noAnswer()]);
    this.hasAnswered = true;
    if (errorText) throw this.notLoaded(`${errorText}${hintOf(errorText)}`);
    if (responses?.failures.includes(address.replace(/#.*$/, ''))) throw this.notLoaded('there is no such file');
    if (this.pageStatus >= 400) throw this.notLoaded(`the server answered ${this.pageStatus}${HINTS[this.pageStatus] || ''}`);
    this.acts.user = new User(this.openTab());
    await this.acts.doEarly();
    await this.rest.waitForLoad();
    if (this.isLoaded) this.until = Date.now() + this.options.time * 1000; // a slow load leaves as much time for what follows
    this.loadTime = this.isLoaded ? await this.openTab().evaluateApart(LOAD_TIME) : null;
  }

  /** @param {string} why */
  notLoaded(why) {
    return new RecordingFault(`${this.given} did not load: ${why}`, STATUS.noPage);
  }

  /** Waits for as long as nothing comes of the page and the time of the recording is not over. */
  async noAnswer() {
    while (!this.hasAnswered && Date.now() < this.until) await sleep(POLL);
    return { errorText: this.responses?.hasPageBegun ? 'it did not come to its end in time' : 'no answer came in time' };
  }

  /**
   * Does what the user does. Returns whether the page was quiet then, or as quiet as it gets.
   * @returns {Promise<boolean>}
   */
  async useAndWait() {
    const { acts, rest, steering } = this;
    await rest.waitBeforeActs();
    const hasActed = await acts.doLate();
    if (acts.user) await acts.clickAround(acts.user);
    if (!steering) return rest.waitForEnd();
    if (hasActed) await rest.waitForQuiet();
    await rest.waitForRelease(() => steering.isReleased());
    await rest.waitForLoad();
    return rest.waitForEnd();
  }

  // ---- what was not recorded

  /** Why the recording is not complete though it came to an end: what was not done when its time was over, or ''. Called by record.js. */
  cut() {
    if (this.options.isRaw || !this.hasAnswered || this.isUsed) return '';
    const left = this.acts.notReached();
    const missing = this.isLoaded ? 'the page was quiet' : 'the page was loaded';
    return `the time of ${this.options.time} s was over before ${missing}${left.length ? `; not done: ${left.join(', ')}` : ''}`;
  }

  /** What the recording lacks of what was to be recorded, in words. */
  lacks() {
    const failures = this.options.keepsGoing ? [] : this.acts.failures();
    return [...failures.map((line) => `not done: ${line}`), ...[this.cut()].filter(Boolean)];
  }

  /** Called by index-task.js and record.js. */
  losses() {
    return [...super.losses(), ...this.windows ? [`windows that the page opened, closed at once: ${this.windows}`] : []];
  }
}

/** @param {unknown} fault */
const messageOf = (fault) => (fault instanceof Error ? fault.message : String(fault));

module.exports = { Recorder, RecordingFault };
