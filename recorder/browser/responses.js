'use strict';
// Takes each request and each response on its way (the protocol's Fetch domain), and leads it through the interceptors of responses/. The HTTP cache is off
// meanwhile, and service workers are bypassed.

const { BrowserFault } = require('./protocol.js');
const { ChangesGuard } = require('./responses/changes-guard.js');
const { ChaosNetwork } = require('./responses/chaos-network.js');
const { Copies, countFault } = require('./responses/copies.js');
const { FolderAnswers } = require('./responses/folder-answers.js');
const { HeldFiles, HeldRequests } = require('./responses/held-requests.js');
const { HoldScripts } = require('./responses/hold-scripts.js');
const { AnswerAgain, KeepAnswers } = require('./responses/keep-answers.js');
const { NetworkLog } = require('./responses/network-log.js');
const { OwnOrigin } = require('./responses/own-origin.js');
const { PageSteps } = require('./responses/page-steps.js');
const { isResponse } = require('./responses/paused.js');
const { SlowNetwork } = require('./responses/slow-network.js');

/**
 * @typedef {import('./responses/paused.js').Paused} Paused
 * @typedef {import('./responses/paused.js').Interceptor} Interceptor
 * @typedef {import('./responses/own-origin.js').Challenge} Challenge
 */

/** Each request is stopped twice: before it is sent, and when the head of its response is there. */
const STAGES = [{ urlPattern: '*', requestStage: 'Request' }, { urlPattern: '*', requestStage: 'Response' }];

/**
 * Without `sources` pages and scripts pass as they are. A file that takes longer than `longest` milliseconds does not come.
 * @typedef {object} ResponsesOptions
 * @property {import('./responses/paused.js').Texts|null} sources
 * @property {import('./folder.js').Folder|null} folder
 * @property {number} slow
 * @property {number} [salt] with another one, `slow` delays others
 * @property {number|null} [chaos] the seed of delays of all
 * @property {number} longest
 * @property {import('./responses/paused.js').Holds|null} [steering] holds some of them back
 * @property {((event: Paused) => unknown)|null} [leaves] called with the request for another page in the place of this one, which else is not followed
 * @property {(address: string) => Promise<void>} [beforePage] called with the page's address before the tab gets it
 * @property {import('./responses/kept-answers.js').KeptAnswers|null} [kept] gets what comes
 * @property {import('./responses/kept-answers.js').AnswersOfRun|null} [answers] given to the requests that a recorded run made too
 * @property {boolean} [isGuarded] whether requests that may change something on a server are not sent
 * @property {[name: string, value: string][]} [headers] for the page's own origin
 * @property {import('../common/address.js').Credentials|null} [credentials] for it, too; if these are null the page gets the refusal of a server that wants
 *   a user's name, and if they are undefined the browser asks its driver
 */

/** Made for each recording: by session.js, and by driven/load.js for each load. */
class Responses {
  /**
   * @param {import('./tab.js').Tab} tab
   * @param {ResponsesOptions} options
   */
  constructor(tab, options) {
    const { sources, folder, slow, longest, steering = null, leaves = null, beforePage = async () => {}, kept = null, headers = [], credentials } = options;
    this.tab = tab;
    this.sources = sources;
    this.folder = folder;
    this.steering = steering;
    this.answersChallenges = credentials !== undefined;
    this.log = new NetworkLog();
    this.log.delay = slow;
    this.steps = new PageSteps(tab, leaves);
    this.own = new OwnOrigin(tab, this.steps, { headers, credentials: credentials || null });
    this.guard = new ChangesGuard(tab, folder);
    this.keep = kept && new KeepAnswers(tab, kept);
    this.copies = new Copies(tab, { sources, holds: steering, longest, beforePage, keep: this.keep });
    this.files = folder && new FolderAnswers(folder, this.steps, this.copies, options);
    this.chain = this.chainOf(options);
  }

  /**
   * In their order: the first one that answers ends the way of an event.
   * @param {ResponsesOptions} options
   * @returns {Interceptor[]}
   */
  chainOf({ folder, slow, salt = 0, chaos = null, steering = null, answers = null, isGuarded = false }) {
    return [
      this.steps,
      this.own,
      new HoldScripts(this.tab, steering),
      ...(isGuarded ? [this.guard] : []),
      ...(steering ? [new HeldRequests(steering)] : []),
      ...(slow > 0 ? [new SlowNetwork(slow, salt)] : []),
      ...(chaos !== null ? [new ChaosNetwork(chaos)] : []),
      ...(steering && folder ? [new HeldFiles(steering, folder)] : []),
      ...(answers ? [new AnswerAgain(answers, this.copies, steering, folder)] : []),
      ...(this.files ? [this.files] : []),
      ...(this.keep ? [this.keep] : []),
      this.copies,
    ];
  }

  /** Called by recording/session.js. */
  async start() {
    const { tab } = this;
    this.steps.mainFrame = await tab.mainFrame();
    tab.on('Fetch.requestPaused', (event) => this.pass(/** @type {Paused} */ (event)));
    if (this.answersChallenges) {
      // a request that the page gave up needs no answer
      tab.on('Fetch.authRequired', (event) => this.own.answerChallenge(/** @type {Challenge} */ (event)).catch(() => {}));
    }
    await this.log.start(tab);
    await this.leaveStores();
    await tab.send('Fetch.enable', { patterns: STAGES, handleAuthRequests: this.answersChallenges });
  }

  /**
   * Each request goes to the network, where the interceptors see it. A file in the browser's memory, or one that a service worker has stored, would come as
   * it is, without marks; and each run of a replay gets what the first one got. Of a driven browser (driven/) both stay as they are.
   */
  async leaveStores() {
    await this.tab.send('Network.setCacheDisabled', { cacheDisabled: true });
    await this.tab.send('Network.setBypassServiceWorker', { bypass: true });
  }

  // ---- what others ask

  /** Each request as `METHOD ADDRESS`. */
  get asked() { return this.log.asked; }
  /** Of a recorded run: the requests that a replay would send again, since it gets no answer from memory. */
  get lacking() { return [...this.keep?.lacking.values() || []]; }
  /** The requests that were not sent. */
  get refused() { return this.guard.refused; }
  get hasPageBegun() { return this.copies.hasPageBegun; }
  /** The addresses of files that are not in the folder. */
  get failures() { return this.files ? this.files.failures : []; }
  /** The scripts and the pages of frames that are not in the folder, in words, or ''. */
  get unserved() { return this.files?.unserved.inWords() || ''; }

  /** How many requests have an end that is waited for. Called by recording/session.js. */
  openRequests() {
    const working = this.log.working();
    return working.size - (this.steering?.countHeld?.(working) || 0);
  }

  /** Counts of what did not come, as lines. Called by recording/session.js. */
  losses() {
    const refused = [...(this.files?.refused || [])].map(([what, count]) => `${what}, not served: ${count}`);
    const waits = this.log.open.size - this.log.working().size;
    const polls = waits ? [`what comes of requests that had no answer for long: ${waits}`] : [];
    return [...this.files?.unserved.lines() || [], ...refused, ...polls, ...(this.steps.notFollowed ? [`steps to another page not followed: ${this.steps.notFollowed}`] : [])];
  }

  // ---- one event

  /**
   * Leads a paused request or response through the chain. It is answered or let pass in any case.
   * @param {Paused} event
   */
  async pass(event) {
    try {
      if (isResponse(event)) await this.passResponse(event);
      else await this.passRequest(event);
    } catch (fault) {
      await this.giveUp(event, fault);
    }
  }

  /** @param {Paused} event */
  async passRequest(event) {
    for (const one of this.chain) if (await one.passRequest?.(event)) return;
    await this.letPass(event);
  }

  /**
   * Called by driven/browser-recorder.js.
   * @param {Paused} event
   */
  async passResponse(event) {
    for (const one of this.chain) if (await one.passResponse?.(event)) return;
    await this.letPass(event);
  }

  /**
   * An address of the folder is none of the network, where another server may have it: such a request never goes on.
   * @param {Paused} event
   */
  async letPass(event) {
    const { requestId, request } = event;
    if (isResponse(event)) await this.tab.send('Fetch.continueRequest', { requestId });
    else if (this.folder?.has(request.url)) await this.tab.send('Fetch.failRequest', { requestId, errorReason: 'Failed' });
    else await this.tab.send('Fetch.continueRequest', { requestId, ...this.own.changes(event) });
  }

  /**
   * A fault of the browser: the page gave the request up. Any other: the file stays as it is.
   * @param {Paused} event
   * @param {unknown} fault
   */
  async giveUp(event, fault) {
    if (!(fault instanceof BrowserFault) && this.sources) countFault(this.sources, fault);
    await this.letPass(event).catch(() => {}); // the page gave the request up
  }
}

module.exports = { Responses };
