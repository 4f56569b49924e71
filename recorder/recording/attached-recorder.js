'use strict';
// Records what another program drives: the page that the first tab of a running Chromium loads next, until the driver ends it or loads another one. `er_record
// --attach` connects to an open browser.

const { printError } = require('../common/output.js');
const { BrowserFault } = require('../browser/protocol.js');
const { AttachedChromium, AttachedTab } = require('../browser/attached.js');
const { STATUS } = require('../common/status.js');
const { sleep } = require('../common/time.js');
const { Session, RecordingFault } = require('./session.js');

/** In milliseconds. */
const POLL = 50;
/** Is in the tab while a recorder is attached to it: true once it waits for the next page, so a driver can load one. */
const MARK = '__erAttached';
const IS_TAKEN = `(() => {
  const isTaken = typeof __er !== 'undefined' || typeof ${MARK} !== 'undefined';
  Object.defineProperty(globalThis, '${MARK}', { value: false, configurable: true });
  return isTaken;
})()`;
const IS_READY = `void Object.defineProperty(globalThis, '${MARK}', { value: true, configurable: true })`;
const GIVE_BACK = `delete globalThis.${MARK}`;

/** Made by record.js for `--attach`. */
class AttachedRecorder extends Session {
  /**
   * @param {string} given how the user named the browser
   * @param {import('./session.js').SessionOptions} options
   * @param {{host: string, port: number}} endpoint
   */
  constructor(given, options, endpoint) {
    super(given, options);
    this.endpoint = endpoint;
    /** Whether the browser, the tab or the page has gone. */
    this.isEnded = false;
    /** Whether another page came in the place of this one. */
    this.isLeft = false;
    this.isFinished = false;
  }

  /** Records the page. Fails with a RecordingFault; what was recorded until then is in the intake. */
  async record() {
    await this.runToEnd(() => this.recordToEnd(), () => this.detach());
  }

  /** Records the page that the driver loads next, until the driver ends it. */
  async recordToEnd() {
    await this.attach();
    try {
      await this.prepare({
        holds: [],
        isDriven: true,
        leaves: () => this.leave(),
        beforePage: (address) => this.allowLocalNetwork(address),
        evaluate: (facts) => this.openTab().evaluateApart(facts), // whatever the tab shows now
      });
      this.until = Date.now() + this.options.time * 1000;
      await this.withinTime(this.waitForDriver());
    } catch (fault) {
      if (!(fault instanceof BrowserFault) || !this.isEnded) throw fault; // when the driver has ended the tab, what came is the recording
    }
  }

  /** Connects to the browser and its first tab. */
  async attach() {
    const { given } = this;
    try {
      const browser = await AttachedChromium.connect(this.endpoint);
      this.browser = browser;
      browser.once('gone', () => { this.isEnded = true; });
      this.tab = await AttachedTab.first(browser);
    } catch (fault) {
      throw new RecordingFault(`${given}: ${fault instanceof Error ? fault.message : fault}`, STATUS.failed);
    }
    const { tab } = this;
    if (await tab.evaluate(IS_TAKEN)) throw new RecordingFault(`${given}: another recorder records the first tab`, STATUS.failed);
    tab.onAny('Target.detachedFromTarget', ({ sessionId }) => { this.isEnded = this.isEnded || sessionId === tab.sessionId; });
    tab.onAny('Target.targetDestroyed', ({ targetId }) => { this.isEnded = this.isEnded || targetId === tab.targetId; });
  }

  /**
   * Ends the recording before another page comes in the place of the recorded one. While its request waits, the tab answers no question, so the page is
   * not asked for its last lines; it has sent them after each task. Detaching releases the request, without marks.
   */
  async leave() {
    if (this.isLeft) return;
    this.isLeft = true;
    await sleep(POLL);
    this.isEnded = true;
    await this.tab?.close().catch(() => {}); // the tab has gone
  }

  /** Waits until the driver loads a page, and then until it ends, loads another page, or the time is over. */
  async waitForDriver() {
    await this.openTab().evaluate(IS_READY).catch(() => {}); // the driver has loaded a page already
    printError(`er_record: attached to ${this.given}: the page that its first tab loads next is recorded`);
    await this.waitWhile(() => !this.responses?.hasPageBegun);
    if (!this.responses?.hasPageBegun) {
      throw new RecordingFault(this.isEnded ? 'the driver ended before it loaded a page' : 'the driver loaded no page in time', STATUS.noPage);
    }
    this.hasAnswered = true;
    this.until = Date.now() + this.options.time * 1000;
    await this.waitWhile(() => true);
    this.isUsed = true;
  }

  /** @param {() => boolean} isDue */
  async waitWhile(isDue) {
    while (isDue() && !this.isEnded && Date.now() < this.until) await sleep(POLL);
  }

  /** Ends once, and only if the other program has not closed the page. */
  async finish() {
    if (this.isFinished) return;
    this.isFinished = true;
    if (!this.isEnded) await super.finish();
  }

  /** The browser is the driver's: it stays, and so does the tab. */
  async detach() {
    if (this.tab && !this.isEnded) {
      await this.tab.evaluate(GIVE_BACK).catch(() => {}); // the page has gone
      await this.tab.close().catch(() => {}); // the tab has gone
    }
    if (this.browser instanceof AttachedChromium && !this.browser.isGone) this.browser.close();
  }

  /** Lines "not recorded" of a browser that another program drives. */
  losses() {
    const windows = this.windows ? [`windows that the page opened, left to the driver: ${this.windows}`] : [];
    const left = this.isLeft ? ['the page that came in the place of this one: a recording has one page'] : [];
    return [...super.losses(), ...windows, ...left];
  }
}

module.exports = { AttachedRecorder };
