'use strict';
// What drives a browser as the libraries of test suites do, over a pipe (as Playwright) or over a WebSocket (as Puppeteer): sessions for tabs that wait at
// their start, contexts, scripts ahead of the page's, requests that it answers itself, acts.

const { spawn } = require('node:child_process');
const fs = require('node:fs');
const os = require('node:os');
const path = require('node:path');

/**
 * A message of the protocol, with the members that are read here. What the methods answer is the browser's own.
 * @typedef {{[name: string]: any}} Params each method has its own
 * @typedef {{id?: number, method?: string, sessionId?: string, params: Params, result?: Params, error?: {message: string}}} Message
 * @typedef {(message: Message) => void} Listener
 * @typedef {{resolve: (result: Params) => void, reject: (fault: Error) => void, method: string}} Waiting
 * @typedef {import('node:child_process').ChildProcess} ChildProcess
 * @typedef {{connection: Connection, child: ChildProcess}} Launched
 */

const WORDS = ['--headless', '--no-sandbox', '--disable-gpu', '--no-first-run', '--disable-extensions', '--disable-component-extensions-with-background-pages'];
const LONGEST_WAIT = 30000;
/**
 * @param {number} time
 * @returns {Promise<void>}
 */
const sleep = (time) => new Promise((resolve) => { setTimeout(resolve, time); });

/** The protocol, whoever carries it. */
class Connection {
  /** @param {(text: string) => void} write */
  constructor(write) {
    this.write = write;
    this.lastId = 0;
    /** @type {Map<number|undefined, Waiting>} */
    this.waiting = new Map();
    /** @type {Listener[]} */
    this.listeners = [];
  }

  /** @param {string} text */
  take(text) {
    /** @type {Message} */
    const message = JSON.parse(text);
    const one = this.waiting.get(message.id);
    this.waiting.delete(message.id);
    if (!one) this.listeners.forEach((listener) => listener(message));
    else if (message.error) one.reject(new Error(`${one.method}: ${message.error.message}`));
    else one.resolve(message.result || {});
  }

  /**
   * @param {string} method
   * @param {Params} params
   * @param {string} [sessionId]
   * @returns {Promise<Params>}
   */
  send(method, params = {}, sessionId = undefined) {
    const id = ++this.lastId;
    this.write(JSON.stringify({ id, method, params, sessionId }));
    return new Promise((resolve, reject) => { this.waiting.set(id, { resolve, reject, method }); });
  }
}

/**
 * A browser over the pipe, as Playwright starts it: in a process group of its own, its end known by that of all its streams.
 * @param {string} program
 * @param {string[]} words
 * @returns {Launched}
 */
function launchOverPipe(program, words) {
  const own = ['--no-startup-window', '--remote-debugging-pipe'];
  const child = spawn(program, [...WORDS, ...words, ...own], { stdio: ['ignore', 'pipe', 'pipe', 'pipe', 'pipe'], detached: true });
  [child.stdout, child.stderr].forEach((stream) => stream?.resume());
  const into = /** @type {import('node:stream').Writable} */ (child.stdio[3]);
  const from = /** @type {import('node:stream').Readable} */ (child.stdio[4]);
  const connection = new Connection((text) => into.write(`${text}\0`));
  let rest = '';
  into.on('error', () => {}); // a browser that has ended reads nothing
  from.setEncoding('utf8');
  from.on('data', (piece) => {
    const texts = (rest + piece).split('\0');
    rest = texts.pop() || '';
    texts.forEach((text) => connection.take(text));
  });
  return { connection, child };
}

/**
 * A browser over its port, as Puppeteer starts it: the address is read from what the browser prints.
 * @param {string} program
 * @param {string[]} words
 * @returns {Promise<Launched>}
 */
async function launchOverPort(program, words) {
  const WebSocket = require(process.env.NODE_WS || '/usr/share/nodejs/ws');
  const child = spawn(program, [...WORDS, ...words, '--remote-debugging-port=0', 'about:blank'], { stdio: ['ignore', 'ignore', 'pipe'], detached: true });
  child.stderr.setEncoding('utf8');
  let said = '';
  /** @type {string} */
  const address = await new Promise((resolve, reject) => {
    child.stderr.on('data', (piece) => {
      said += piece;
      const found = /^DevTools listening on (ws:\/\/.*)$/m.exec(said);
      if (found) resolve(found[1].trim());
    });
    child.on('exit', () => reject(new Error(`the browser ended: ${said}`)));
  });
  const socket = new WebSocket(address, [], { perMessageDeflate: false, maxPayload: 256 << 20 });
  /** @type {Promise<void>} */
  const isOpen = new Promise((resolve, reject) => { socket.on('open', resolve); socket.on('error', reject); });
  await isOpen;
  const connection = new Connection((text) => socket.send(text));
  socket.on('message', (/** @type {unknown} */ data) => connection.take(String(data)));
  return { connection, child };
}

class Driver {
  /**
   * @param {string} program
   * @param {{isOverPort?: boolean, words?: string[]}} options
   */
  static async launch(program, { isOverPort = false, words = [] } = {}) {
    const profile = fs.mkdtempSync(path.join(os.tmpdir(), 'driver-profile-'));
    const launch = isOverPort ? launchOverPort : launchOverPipe;
    const driver = new Driver(await launch(program, [...words, `--user-data-dir=${profile}`]), profile);
    await driver.connection.send('Browser.getVersion');
    await driver.connection.send('Target.setAutoAttach', { autoAttach: true, waitForDebuggerOnStart: true, flatten: true });
    driver.contextId = (await driver.connection.send('Target.createBrowserContext', { disposeOnDetach: true })).browserContextId;
    return driver;
  }

  /**
   * @param {Launched} launched
   * @param {string} profile
   */
  constructor({ connection, child }, profile) {
    this.connection = connection;
    this.child = child;
    this.profile = profile;
    this.contextId = '';
    /** @type {Tab[]} */
    this.tabs = [];
    /** @type {Promise<{status: number|null, signal: string|null}>} */
    this.ended = new Promise((resolve) => { child.on('close', (status, signal) => resolve({ status, signal })); });
    connection.listeners.push((message) => this.note(message));
  }

  /** @param {Message} message */
  note({ method, params }) {
    if (method === 'Target.attachedToTarget' && params.targetInfo.type === 'page') this.tabs.push(new Tab(this, params));
    else if (method === 'Target.attachedToTarget') this.connection.send('Runtime.runIfWaitingForDebugger', {}, params.sessionId).catch(() => {}); // it may be gone
  }

  async newTab(url = 'about:blank') {
    const { targetId } = await this.connection.send('Target.createTarget', { url, browserContextId: this.contextId });
    const tab = await waitFor(() => this.tabs.find((one) => one.targetId === targetId), 'the new tab');
    await tab.isReady;
    return tab;
  }

  /** How a driver ends a browser: it asks, and waits until the process and its streams have gone. */
  async close() {
    await this.connection.send('Browser.close').catch(() => {}); // the answer may not come any more
    const ended = await this.ended;
    fs.rmSync(this.profile, { recursive: true, force: true, maxRetries: 10, retryDelay: 50 });
    return ended;
  }

  killNow() {
    try {
      process.kill(-Number(this.child.pid), 'SIGKILL');
    } catch {
      // it has ended
    }
  }

  /** How it ends one that hangs. */
  async kill() {
    this.killNow();
    const ended = await this.ended;
    fs.rmSync(this.profile, { recursive: true, force: true, maxRetries: 10, retryDelay: 50 });
    return ended;
  }
}

class Tab {
  /**
   * @param {Driver} driver
   * @param {Params} attached
   */
  constructor({ connection }, { sessionId, targetInfo }) {
    this.connection = connection;
    /** @type {string} */
    this.sessionId = sessionId;
    /** @type {string} */
    this.targetId = targetInfo.targetId;
    this.loads = 0;
    /** @type {Map<string, {type: string, body: string}>} what the driver answers in the place of a server, by the end of the address */
    this.routes = new Map();
    connection.listeners.push((message) => message.sessionId === sessionId && this.note(message));
    /** @type {[method: string, params?: Params][]} */
    const sent = [['Page.enable'], ['Page.getFrameTree'], ['Log.enable'], ['Page.setLifecycleEventsEnabled', { enabled: true }], ['Runtime.enable'],
      ['Page.addScriptToEvaluateOnNewDocument', { source: '', worldName: '__driver_utility' }], ['Network.enable'],
      ['Target.setAutoAttach', { autoAttach: true, waitForDebuggerOnStart: true, flatten: true }],
      ['Page.addScriptToEvaluateOnNewDocument', { source: 'window.ofTheDriver = (window.ofTheDriver || 0) + 1;' }], ['Runtime.runIfWaitingForDebugger']];
    this.isReady = Promise.all(sent.map(([method, params]) => this.send(method, params)));
    this.isReady.catch(() => {}); // who waits for it has the fault
  }

  /**
   * @param {string} method
   * @param {Params} [params]
   */
  send(method, params) {
    return this.connection.send(method, params, this.sessionId);
  }

  /** @param {Message} message */
  note({ method, params }) {
    if (method === 'Page.loadEventFired') this.loads++;
    else if (method === 'Page.javascriptDialogOpening') this.send('Page.handleJavaScriptDialog', { accept: true }).catch(() => {}); // the page may be gone
    else if (method === 'Fetch.requestPaused') this.route(params).catch(() => {}); // the request may be gone
  }

  /**
   * From now on the driver answers some requests itself, and lets all others go on.
   * @param {string} ending
   * @param {string} type
   * @param {string} body
   */
  async answer(ending, type, body) {
    this.routes.set(ending, { type, body });
    if (this.routes.size === 1) await this.send('Fetch.enable', { handleAuthRequests: true, patterns: [{ urlPattern: '*', requestStage: 'Request' }] });
  }

  /** @param {Params} paused */
  async route({ requestId, request }) {
    const [, found] = [...this.routes].find(([ending]) => request.url.endsWith(ending)) || [];
    const answer = found && { responseCode: 200, responseHeaders: [{ name: 'content-type', value: found.type }], body: Buffer.from(found.body).toString('base64') };
    await this.send(found ? 'Fetch.fulfillRequest' : 'Fetch.continueRequest', { requestId, ...answer });
  }

  /** @param {string} url */
  async load(url) {
    const before = this.loads;
    const { errorText } = await this.send('Page.navigate', { url });
    if (errorText) throw new Error(`${url}: ${errorText}`);
    await waitFor(() => this.loads > before, `the load of ${url}`);
  }

  /** @param {string} expression */
  async value(expression) {
    const { result, exceptionDetails } = await this.send('Runtime.evaluate', { expression, returnByValue: true, awaitPromise: true });
    if (exceptionDetails) throw new Error(`${expression}: ${exceptionDetails.text}`);
    return result.value;
  }

  /** @param {string} expression */
  waitForValue(expression) {
    return waitFor(() => this.value(expression), expression);
  }

  /** @param {string} selector */
  async click(selector) {
    const spot = await this.value(`(() => { const box = document.querySelector('${selector}').getBoundingClientRect(); return { x: box.left + 5, y: box.top + 5 }; })()`);
    await this.send('Input.dispatchMouseEvent', { type: 'mouseMoved', ...spot });
    for (const type of ['mousePressed', 'mouseReleased']) await this.send('Input.dispatchMouseEvent', { type, ...spot, button: 'left', clickCount: 1 });
  }

  /**
   * @param {string} selector
   * @param {string} text
   */
  async type(selector, text) {
    await this.click(selector);
    await this.send('Input.insertText', { text });
  }

  close() {
    return this.connection.send('Target.closeTarget', { targetId: this.targetId });
  }
}

/**
 * What `look` finds, once it finds something.
 * @template T
 * @param {() => T} look
 * @param {string} what
 * @returns {Promise<NonNullable<Awaited<T>>>}
 */
async function waitFor(look, what) {
  for (const until = Date.now() + LONGEST_WAIT; Date.now() < until; await sleep(20)) {
    const found = await look();
    if (found) return found;
  }
  throw new Error(`waited in vain for ${what}`);
}

module.exports = { Driver, Tab, waitFor, sleep };
