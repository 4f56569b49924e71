'use strict';
// What a recording of a tab has, whoever drives the tab: its log, texts and errors, how it is prepared, and how it ends. Dialogs (alert, confirm, prompt) are
// answered here, and a crash is noticed (`listen`).
/* global window, Element */

const { BrowserFault } = require('../browser/protocol.js');
const { Responses } = require('../browser/responses.js');
const { KeptAnswers } = require('../browser/responses/kept-answers.js');
const { readMapOf } = require('../browser/local-server.js');
const { isOfThisMachine } = require('../browser/changing.js');
const { shown } = require('../common/shown.js');
const { STATUS } = require('../common/status.js');
const { sleep, within } = require('../common/time.js');
const { lossesOf } = require('../texts/losses.js');
const { Sources } = require('../texts/sources.js');
const { Intake } = require('../trace/intake.js');
const { Awaited } = require('./awaited.js');
const { ChaosHolds } = require('./chaos.js');
const { errorText, consoleText } = require('./error-text.js');
const { ofRecording, ownNames, pageScript } = require('./page-script.js');

/** @typedef {import('../browser/tab.js').Tab} Tab */
/** @typedef {import('../browser/protocol.js').Protocol} Protocol */
/** @typedef {import('../browser/folder.js').Folder} Folder */

/**
 * What a recording of a replay has besides its options.
 * @typedef {object} Run
 * @property {import('../browser/chromium.js').Chromium|null} [browser] a browser that runs, and stays
 * @property {boolean} [keepsBrowser] whether a browser that the recording started stays
 * @property {Sources} [sources] those of another run of the page, so that its scripts are marked in the same way
 * @property {{seed: number, date: number}|null} [fixed] what random numbers and the clock are fixed to
 * @property {import('../replay/steering.js').RunSteering|null} [steering] what is held back
 * @property {boolean} [stamps] whether the begins of actions are in the browser's own timeline (page/recording/stamps.js)
 * @property {boolean} [standsStill] whether the page stands still at the end
 * @property {(entries: {text: string, place?: string}[], from: number) => boolean} [hasOnlyTurns] whether the log from an entry on has only what keeps a
 *   page going that never rests
 * @property {{word: string, place: string, count: number}|null} [turns] of what keeps a page going that never rests: it goes on for as many
 * @property {KeptAnswers|null} [received] what the recorded run received: this one gets it again
 * @property {boolean} [isGuarded] whether requests are refused that may change something on a server
 * @property {(recorder: any) => Promise<void>} [whenOver] called with the recorder (any: of its own class) when the recording is over
 */

/** @typedef {import('./options.js').RecordingOptions & Run} SessionOptions */

/**
 * How a tab is prepared.
 * @typedef {object} Preparation
 * @property {(import('../page/types').Hold|null)[]} [holds] what a replay holds back in the page
 * @property {boolean} [isDriven] whether another program drives the tab: dialogs are that program's
 * @property {((event: object) => Promise<void>)|null} [leaves] called when another page comes in the place of the recorded one
 * @property {(address: string) => Promise<void>} [beforePage] called before the tab gets the page
 * @property {(facts: string) => Promise<BrowserFacts>} evaluate evaluates in the page that the tab shows
 */

/** @typedef {{names: string[], handlerOwners: string[], handlerNames: string[]}} BrowserFacts */

const POLL = 50;
/** So many milliseconds a page gets after its time is over, for a last answer; and for its last lines, so that a recording keeps its time. */
const GRACE = 500;
const LONGEST_END = 1000;
/** So many milliseconds the last lines of the page are waited for. */
const LONGEST_FLUSH = 5000;
const NO_STOP = () => {};

/**
 * Runs in an empty page: the names that every window has, the interfaces with `on..` properties, and the event handler attributes of elements. Two of these
 * have no property. Called by driven/browser-recorder.js.
 */
function browserFacts() {
  const names = [];
  for (let one = window; one; one = Object.getPrototypeOf(one)) names.push(...Object.getOwnPropertyNames(one));
  /** @type {(name: string) => object} */
  const prototypeOf = (name) => Object.getOwnPropertyDescriptor(window, name)?.value?.prototype || {};
  /** @type {(name: string) => string[]} */
  const handlersOf = (name) => Object.getOwnPropertyNames(prototypeOf(name)).filter((property) => /^on[a-z]/.test(property));
  /** @type {(name: string) => boolean} */
  const isElement = (name) => prototypeOf(name) === Element.prototype || prototypeOf(name) instanceof Element;
  const handlerOwners = Object.getOwnPropertyNames(window).filter((name) => handlersOf(name).length);
  return { names, handlerOwners, handlerNames: [...new Set(['onfocusin', 'onfocusout', ...handlerOwners.filter(isElement).flatMap(handlersOf)])] };
}

/** Why a recording ended before its end. Made by attached-recorder.js and recorder.js. */
class RecordingFault extends Error {
  /**
   * @param {string} message
   * @param {number} status the exit status
   */
  constructor(message, status) {
    super(message);
    this.status = status;
  }
}

/** The base of `Recorder` and `AttachedRecorder`. */
class Session {
  /**
   * @param {string} given the page as the user named it
   * @param {SessionOptions} options
   */
  constructor(given, options) {
    this.options = options;
    this.given = given;
    this.sources = options.sources ? options.sources.forRun() : new Sources(options.depth, options.keepsAll);
    this.intake = new Intake({ countSites: () => this.sources.sites.length });
    this.steering = options.steering || null;
    /** The names under which the page's half reaches this one. */
    this.ownNames = ownNames();
    /** Of a run that is compared: what the page has asked for that comes by itself. */
    this.awaited = options.whenOver ? new Awaited(this.intake) : null;
    /** Of a recorded run that is compared with others: what it receives. */
    this.kept = options.whenOver && !options.sources ? new KeptAnswers() : null;
    this.address = '';
    this.folder = /** @type {Folder|null} */ (null);
    this.browser = /** @type {Protocol|null} */ (null);
    this.tab = /** @type {Tab|null} */ (null);
    this.responses = /** @type {Responses|null} */ (null);
    /** The HTTP status of the page itself, or 0. */
    this.pageStatus = 0;
    this.errors = /** @type {string[]} uncaught ones */ ([]);
    this.consoleErrors = /** @type {string[]} */ ([]);
    this.dialogs = /** @type {string[]} */ ([]);
    this.windows = 0;
    /** Whether dialogs are dismissed: clicks that the seed chose may have opened them. */
    this.isDismissing = false;
    this.isLoaded = false;
    this.hasAnswered = false;
    /** Whether the recording came to its own end, before its time was over. */
    this.isUsed = false;
    /** @type {number|null} milliseconds from the start of the navigation to the end of the page's load event */
    this.loadTime = null;
    /** When the time of the recording is over. */
    this.until = Infinity;
    /** @type {(fault: RecordingFault) => void} */
    this.stop = NO_STOP;
    /** @type {Promise<never>} */
    this.stopped = new Promise((resolve, reject) => { this.stop = reject; });
    this.stopped.catch(() => {}); // `runToEnd` takes it, if it is still to come
  }

  /** Stops the recording. What was recorded so far is kept. */
  interrupt() {
    this.stop(new RecordingFault('stopped', STATUS.stopped));
  }

  /** How many requests are open whose end is waited for. Called by rest.js. */
  openRequests() {
    return this.responses ? this.responses.openRequests() : 0;
  }

  /** The tab, once it is open. Called by acts.js and rest.js. */
  openTab() {
    if (!this.tab) throw new Error('the tab is not open yet');
    return this.tab;
  }

  /**
   * Runs a recording to its end. Fails with a RecordingFault; what was recorded until then is in the intake. Called by attached-recorder.js and recorder.js.
   * @param {() => Promise<void>} work
   * @param {() => Promise<void>} close
   */
  async runToEnd(work, close) {
    try {
      await Promise.race([work(), this.stopped]);
    } catch (fault) {
      if (fault instanceof RecordingFault && fault.status === STATUS.stopped && this.tab) await this.finish();
      if (!(fault instanceof BrowserFault)) throw fault;
      throw new RecordingFault(`the browser failed: ${fault.message}`, STATUS.failed);
    } finally {
      await close();
    }
  }

  /**
   * A page that never ends its work answers nothing: what was recorded until its time is over is the recording. Called by attached-recorder.js and recorder.js.
   * @param {Promise<void>} work
   */
  async withinTime(work) {
    const timeIsUp = async () => {
      while (!this.isUsed && Date.now() < this.until + GRACE) await sleep(POLL);
    };
    await Promise.race([work, timeIsUp()]);
    await this.finish();
  }

  // ---- the tab

  /**
   * Prepares the tab for the page: its listeners, the script of the recorder, the chain of responses.
   * @param {Preparation} how
   */
  async prepare({ holds, isDriven = false, leaves = null, beforePage, evaluate }) {
    const { options, folder } = this;
    const tab = this.openTab();
    this.listen(isDriven);
    for (const domain of ['Page', 'Runtime', 'Inspector']) await tab.send(`${domain}.enable`);
    const { names, handlerOwners, handlerNames } = await evaluate(`(${browserFacts})()`);
    this.sources.builtins.set(names);
    this.sources.handlerNames = new Set(handlerNames);
    const { slow, salt, chaos = null, isGuarded, time, headers } = options;
    const pauses = chaos === null ? null : new ChaosHolds(chaos);
    const sources = options.isRaw ? null : this.sources;
    const longest = time * 1000 + GRACE;
    const credentials = isDriven ? undefined : options.credentials; // a driver answers the servers itself
    const memory = { kept: this.kept, answers: options.received?.forRun() };
    this.responses = new Responses(tab, {
      leaves, beforePage, sources, folder, slow, salt, chaos, longest, steering: this.steering || pauses, ...memory, isGuarded, headers, credentials,
    });
    await this.responses.start();
    await tab.closeOpenedWindows(() => { this.windows++; });
    if (options.isRaw) return;
    await tab.send('Page.addScriptToEvaluateOnNewDocument', {
      source: pageScript(handlerOwners, { ...options, ...this.ownNames, handlerNames, holds: holds || (pauses ? [] : undefined), isDriven }),
      runImmediately: !isDriven, // in the empty page, without a binding: so the script is compiled when the page comes
    });
    await tab.send('Runtime.addBinding', { name: this.ownNames.binding });
  }

  /**
   * The browser does not know that a copy with marks came from this machine, as it would know of the page itself.
   * @param {string} address
   */
  async allowLocalNetwork(address) {
    if (isOfThisMachine(address)) await this.openTab().allowLocalNetwork(new URL(address).origin);
  }

  /**
   * Listens to what the page sends, to its errors and dialogs (`alert`, `confirm`, `prompt`: answered here), and to a crash of its tab.
   * @param {boolean} [isDriven] whether another program drives the tab
   */
  listen(isDriven = false) {
    const tab = this.openTab();
    tab.on('Runtime.bindingCalled', ({ name, payload }) => { if (name === this.ownNames.binding) this.take(payload); });
    tab.on('Runtime.exceptionThrown', ({ exceptionDetails }) => this.errors.push(errorText(exceptionDetails, this.address, this.sources)));
    tab.on('Runtime.consoleAPICalled', ({ type, args }) => {
      if (type === 'error' || type === 'assert') this.consoleErrors.push(consoleText(args, this.sources));
    });
    tab.on('Page.javascriptDialogOpening', ({ type, message }) => {
      this.dialogs.push(`${type}: ${shown(message)}`);
      if (!isDriven) tab.send('Page.handleJavaScriptDialog', { accept: !this.isDismissing }).catch(() => {}); // it was closed already
    });
    tab.on('Page.loadEventFired', () => { this.isLoaded = true; });
    tab.on('Network.responseReceived', ({ type, frameId, response }) => {
      if (type === 'Document' && frameId === this.responses?.steps.mainFrame && !this.pageStatus) this.pageStatus = response.status;
    });
    // the files are written all the same (recordInto in record.js), with what the page has sent
    tab.on('Inspector.targetCrashed', () => this.stop(new RecordingFault('the page crashed the browser', STATUS.failed)));
  }

  /**
   * Takes lines of the page's log.
   * @param {string} payload lines of the log
   */
  take(payload) {
    this.intake.take(payload);
    this.steering?.look();
  }

  /** Asks the page for its lines so far. Called by rest.js. */
  async flush() {
    this.awaited?.read(Date.now());
    await this.callRecording('flush');
  }

  /** Ends the recording in the page, which sends its last lines. */
  async finish() {
    await this.callRecording('finish', Date.now() < this.until ? LONGEST_FLUSH : LONGEST_END);
    await sleep(POLL); // the last batch comes as an event of the protocol
  }

  /**
   * Calls a method of the recording in the page, and waits for it at most so many milliseconds.
   * @param {'flush'|'finish'} method
   * @param {number} longest in milliseconds
   */
  async callRecording(method, longest = LONGEST_FLUSH) {
    if (this.options.isRaw) return;
    const answer = this.openTab().evaluate(ofRecording(this.ownNames, `.${method}()`));
    await within(answer.catch(() => {}), longest, undefined); // the page has gone, or does not answer: it has sent what it could
  }

  // ---- after the recording

  /** Reads the source maps of the page's scripts. */
  async readMaps() {
    await this.sources.readMaps((address, script) => readMapOf(address, script, this.folder));
  }

  /** Counts of what was left out or changed, as lines. */
  losses() {
    const lines = lossesOf(this.intake, this.sources);
    lines.push(...this.responses?.losses() || []);
    if (this.hasAnswered && !this.isUsed) lines.push('what came later: the recording ended before the page was quiet');
    return lines;
  }
}

module.exports = { Session, RecordingFault, browserFacts, GRACE };
