'use strict';
// A tab that a driver drives, and its page loads one after the other. A load starts when the tab shows another document, not with a step inside of one. Also if
// the driver itself intercepts requests (`page.route`).

const { Tab } = require('../browser/tab.js');
const { within } = require('../common/time.js');

/**
 * An event of the DevTools protocol: its members differ by method.
 * @typedef {{[name: string]: any}} ProtocolEvent
 */
/** @typedef {Parameters<typeof import('../recording/error-text.js').errorText>[0] & {executionContextId?: number}} ExceptionDetails */
/** @typedef {{resourceType: string, frameId: string, request: {url: string}}} DocumentEvent */

/** Pages and scripts are instrumented when their responses come: what the driver answers itself is a response too. */
const PATTERNS = ['Document', 'Script'].map((resourceType) => ({ urlPattern: '*', requestStage: 'Response', resourceType }));
/** In a run that holds something back: any response can be that, and a request at which the parser waits. */
const ALL = ['Request', 'Response'].map((requestStage) => ({ urlPattern: '*', requestStage }));
/** Pages of the browser itself, and empty ones, are not loads. */
const IS_NO_LOAD = /^(about|chrome|chrome-error|chrome-extension|devtools|view-source):|^data:,$/;
/** An empty page that is written gets its code without a response, so nothing instruments it. */
const WRITTEN = 'not recorded: pages that a program writes into an empty page, as setContent does: load them from an address, or answer one (route.fulfill)';
/** A tab takes what the recorder sends at once, unless it has started to load by then; milliseconds that a document waits for that. */
const LONGEST_SETTING = 1000;
const LONGEST_SETTING_OF_OPENED = 100;

/** Made by BrowserRecorder for each tab that it meets. */
class DrivenTab {
  /**
   * @param {import('./browser-recorder.js').BrowserRecorder} recorder
   * @param {{targetId: string, openerId?: string, browserContextId?: string}} target the browser's TargetInfo
   * @param {string} sessionId
   */
  constructor(recorder, { targetId, openerId, browserContextId }, sessionId) {
    this.recorder = recorder;
    this.browser = recorder.browser;
    this.targetId = targetId;
    this.openerId = openerId;
    this.contextId = browserContextId;
    this.sessionId = sessionId;
    this.tab = new Tab(recorder.browser, { contextId: browserContextId || '', targetId, sessionId });
    /** @type {import('./load.js').Load|null} */
    this.current = null;
    /**
     * The load of the document whose response came last.
     * @type {import('./load.js').Load|null}
     */
    this.coming = null;
    /**
     * The address of the document that comes next if it is instrumented: the session for responses may see it too.
     * @type {string|null}
     */
    this.marked = null;
    /**
     * What a page sent before the browser reported the page, as when an opened window goes on with the window of its first, empty page.
     * @type {string[]}
     */
    this.early = [];
    /** @type {Promise<void>} settles when the tab has taken what `setUp` sent, or has gone */
    this.scripted = Promise.resolve();
    /** @type {Promise<void>} settles when the session for responses listens, or the tab has gone */
    this.ready = Promise.resolve();
    /** @type {Map<number, import('./load.js').Load>} by the number of its window's context */
    this.contexts = new Map();
    /** Whether each new document gets the recorder's script. */
    this.hasScript = false;
    /** Whether a document comes that may begin without the script: its copy brings it (`openedIn` in browser-recorder.js). */
    this.isLate = false;
    /** Whether it has shown a page. */
    this.hasShown = false;
  }

  /**
   * Calls a method of the protocol in this tab, beside its driver.
   * @param {string} method
   * @param {object} [params]
   */
  send(method, params) {
    return this.tab.send(method, params);
  }

  /**
   * Sets up the tab, which waits at its start; if its driver waits too, that can resume it at any time. A session that came later is nearer to the page, so
   * responses have a session of their own, after the driver's: it gets what the driver puts in the place of a response. Called by browser-recorder.js.
   * @param {boolean|undefined} isWaiting
   */
  setUp(isWaiting) {
    const { source, ownNames } = this.recorder;
    const sent = [this.send('Page.enable'), this.send('Runtime.enable'), this.send('Runtime.addBinding', { name: ownNames.binding }),
      this.send('Page.addScriptToEvaluateOnNewDocument', { source })];
    this.scripted = Promise.all(sent).then(() => { this.hasScript = true; }).catch(() => {}); // a tab that has gone
    this.ready = this.answerResponses().catch(() => {}); // a tab that has gone
    if (isWaiting) this.ready.then(() => this.send('Runtime.runIfWaitingForDebugger')).catch(() => {}); // a tab that has gone
  }

  /** Attaches a session for responses. If the driver intercepts requests too (`page.route`), it answers before: this session gets what the driver puts in. */
  async answerResponses() {
    const { sessionId } = await this.browser.send('Target.attachToTarget', { targetId: this.targetId, flatten: true });
    this.recorder.sessions.set(sessionId, this);
    await this.browser.send('Fetch.enable', { patterns: this.recorder.plan?.load ? ALL : PATTERNS }, sessionId);
  }

  /**
   * Waits until a document that comes can be recorded, before its request goes on (`passRequest` in browser-recorder.js). If the tab takes too long, the
   * document's copy brings the script, and `show` is called here, because no event reports the document. Called by browser-recorder.js.
   */
  async waitForSetting() {
    await this.ready;
    if (!this.hasScript) await within(this.scripted, this.openerId ? LONGEST_SETTING_OF_OPENED : LONGEST_SETTING);
    if (this.hasScript) return;
    this.isLate = true;
    this.scripted.then(() => { if (this.coming) this.show({ url: this.coming.address }); });
  }

  // ---- events

  /**
   * Takes an event of the protocol.
   * @param {string} method
   * @param {ProtocolEvent} params
   */
  take(method, params) {
    switch (method) {
      case 'Page.frameNavigated': if (!params.frame.parentId) this.show(params.frame); break;
      case 'Page.documentOpened': if (!params.frame.parentId && !this.current) this.recorder.complain(WRITTEN); break;
      case 'Runtime.executionContextsCleared': this.forgetContexts(); break;
      case 'Runtime.executionContextCreated': this.noteContext(params.context); break;
      case 'Runtime.bindingCalled': if (params.name === this.recorder.ownNames.binding) this.takeLines(params); break;
      case 'Runtime.exceptionThrown': this.loadOf(params.exceptionDetails)?.takeError(params.exceptionDetails); break;
      case 'Inspector.targetCrashed': this.endLoad('the page crashed'); break;
      default:
    }
  }

  /**
   * Another document is there. Its address has no fragment.
   * @param {{url: string, unreachableUrl?: string}} frame
   */
  show({ url, unreachableUrl }) {
    this.endLoad('another page came in its place');
    const { coming } = this;
    this.coming = null;
    this.marked = null;
    this.isLate = false;
    if (coming && coming.address === url) this.current = coming;
    else if (!IS_NO_LOAD.test(url) && !unreachableUrl) this.current = this.recorder.beginLoad(this, url);
    this.hasShown = this.hasShown || this.current !== null;
    this.early.splice(0).forEach((payload) => this.current?.take(payload));
  }

  forgetContexts() {
    this.contexts.clear();
    this.early = [];
  }

  /**
   * The page sends a batch of lines: to the load of its document; they can come before the load is known.
   * @param {ProtocolEvent} event
   */
  takeLines({ executionContextId, payload }) {
    const load = this.loadOf({ executionContextId });
    if (load) load.take(payload);
    else this.early.push(payload);
  }

  /** @param {{id: number, auxData?: {isDefault?: boolean, frameId?: string}}} context */
  noteContext({ id, auxData = {} }) {
    if (auxData.isDefault && auxData.frameId === this.targetId && this.current) this.contexts.set(id, this.current);
  }

  /** @param {{executionContextId?: number}} event */
  loadOf({ executionContextId = 0 }) {
    return this.contexts.get(executionContextId) || this.current;
  }

  /**
   * The load of this tab is over, if it has one.
   * @param {string} why
   */
  endLoad(why) {
    if (this.current) this.recorder.endLoad(this.current, why);
    this.current = null;
  }

  // ---- responses

  /** What the page holds back, or the page that comes next. Called by browser-recorder.js. */
  steering() {
    return this.coming?.steering || this.current?.steering || null;
  }

  /**
   * Whether a response is of the page that this tab has instrumented last. Called by browser-recorder.js.
   * @param {Pick<DocumentEvent, 'frameId'|'request'>} event
   */
  hasMarked({ frameId, request }) {
    return frameId === this.targetId && request.url === this.marked;
  }

  /**
   * The load to which a response belongs; null if its page is not recorded. Called by browser-recorder.js.
   * @param {DocumentEvent} event
   */
  loadOfResponse({ resourceType, frameId, request }) {
    if (resourceType !== 'Document' || frameId !== this.targetId) return this.current;
    this.coming = this.recorder.beginLoad(this, request.url.replace(/#.*$/, ''));
    return this.coming;
  }
}

module.exports = { DrivenTab };
