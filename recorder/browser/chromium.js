'use strict';
// Headless Chromium, driven over a pipe of its DevTools protocol: nothing listens on a port. Its command line flags, its temporary profile (home folder), which
// is deleted at the end, how it starts, ends and is killed.

const { spawn } = require('node:child_process');
const fs = require('node:fs');
const os = require('node:os');
const path = require('node:path');
const { printErrorOnce } = require('../common/output.js');
const { within } = require('../common/time.js');
const { Protocol, BrowserFault } = require('./protocol.js');

/**
 * With `userDataDir` the profile is in that folder, which stays; with `isHeaded` the window is shown.
 * @typedef {{width: number, height: number, ignoresCertificateErrors?: boolean, userDataDir?: string|null, isHeaded?: boolean}} LaunchOptions
 */

/** Which program (executable) of Chromium is started. `../install` says what to do if it is missing. */
const PROGRAM = process.env.CHROMIUM || '/usr/bin/chromium';
const FLAGS = [
  '--headless', '--disable-gpu', '--no-first-run', '--disable-background-networking', '--disable-component-update',
  '--disable-sync', '--disable-default-apps', '--disable-extensions', '--mute-audio', '--disable-dev-shm-usage',
  '--disable-background-timer-throttling', '--disable-renderer-backgrounding', '--disable-backgrounding-occluded-windows',
  // no keyring, no dialogs of the browser itself, the same colors on each machine
  '--password-store=basic', '--no-default-browser-check', '--disable-hang-monitor', '--disable-prompt-on-repost', '--force-color-profile=srgb',
  // One process for a page and all its frames, so that their actions come in one order. The popups of the address bar do not load: for each new window
  // they are pages with hundreds of modules in a process of their own, which took most of the processor time of a small page, and no page sees them.
  '--disable-site-isolation-trials', '--disable-features=IsolateOrigins,site-per-process,BackForwardCache,Prerender2,WebUIOmniboxPopup,WebUIOmniboxAimPopup',
  '--remote-debugging-pipe',
];
// Not among them, as a page would do something else than in a user's browser: --disable-ipc-flooding-protection (a page that floods its
// history is throttled), --allow-pre-commit-input (no user clicks before there is a picture), --hide-scrollbars (these take room).

/** In milliseconds. The limit of any other answer is in protocol.js. */
const LONGEST_START = 120000;
const LONGEST_END = 2000;

/** What the browser and its libraries read of a user's home, if it is there: certificates and fonts. */
const READ_OF_HOME = ['.pki', '.local/share/pki', '.fonts', '.local/share/fonts', '.config/fontconfig'];
/** The names of the environment that say where folders of the home are. */
const OF_HOME = /^XDG_(CONFIG_HOME|CACHE_HOME|DATA_HOME|STATE_HOME|RUNTIME_DIR)$/;
const NO_SANDBOX = 'it has no sandbox of its own here: install the package chromium-sandbox';

/**
 * The browser does not run as root with its sandbox. The recorder does not change its user: containers have root only, and its files would belong to
 * somebody else.
 */
function sandboxFlags() {
  if (!process.getuid || process.getuid() !== 0) return [];
  printErrorOnce("Chromium's own sandbox is off, since it does not start with it as root: record pages that you do not trust as another user.");
  return ['--no-sandbox'];
}

/** A folder for all that the browser writes. */
function temporaryFolder() {
  try {
    return fs.mkdtempSync(path.join(os.tmpdir(), 'er-record-'));
  } catch (fault) {
    throw new BrowserFault(`no temporary folder can be made: ${/** @type {Error} */ (fault).message}`);
  }
}

/**
 * The browser's home is a folder, so that nothing is written into the user's own; what it reads there is linked.
 * @param {string} folder
 */
function environmentIn(folder) {
  const own = process.env.HOME;
  for (const name of own ? READ_OF_HOME : []) {
    if (!own || !fs.existsSync(path.join(own, name))) continue;
    fs.mkdirSync(path.dirname(path.join(folder, name)), { recursive: true });
    fs.symlinkSync(path.resolve(own, name), path.join(folder, name));
  }
  const others = Object.entries(process.env).filter(([name]) => !OF_HOME.test(name));
  return { ...Object.fromEntries(others), HOME: folder, TMPDIR: folder }; // what the browser leaves there when it is killed goes with the folder
}

/**
 * A browser's process, with the pipes of its protocol.
 * @param {string[]} flags
 * @param {string} folder
 * @param {string} log the file for its standard error
 */
function spawnBrowser(flags, folder, log) {
  const errors = fs.openSync(log, 'wx');
  const child = spawn(PROGRAM, flags, { stdio: ['ignore', 'ignore', errors, 'pipe', 'pipe'], detached: true, env: environmentIn(folder) });
  fs.closeSync(errors);
  const [, , , input, output] = child.stdio;
  return { child, input: /** @type {import('node:stream').Writable} */ (input), output: /** @type {import('node:stream').Readable} */ (output) };
}

/** An own browser; AttachedChromium (attached.js) is another program's. Made by driven/flow-recorder.js and recording/recorder.js. */
class Chromium extends Protocol {
  /**
   * A browser that has started.
   * @param {LaunchOptions} options
   */
  static async launch(options) {
    const browser = new Chromium();
    browser.start(options);
    try {
      await browser.hasStarted();
    } catch (fault) {
      await browser.close();
      throw fault;
    }
    return browser;
  }

  constructor() {
    super();
    this.folder = '';
    /** @type {import('node:child_process').ChildProcess|null} */
    this.process = null;
    /** @type {import('node:stream').Writable|null} */
    this.input = null;
    this.onProcessExit = () => this.killNow();
  }

  /**
   * Starts the program with its flags and a temporary profile; `hasStarted` waits until it answers.
   * @param {LaunchOptions} options
   */
  start({ width, height, ignoresCertificateErrors = false, userDataDir = null, isHeaded = false }) {
    this.folder = temporaryFolder();
    const flags = [...FLAGS.filter((flag) => !isHeaded || flag !== '--headless'), ...sandboxFlags(), ...(ignoresCertificateErrors ? ['--ignore-certificate-errors'] : []),
      `--user-data-dir=${userDataDir ? path.resolve(userDataDir) : this.folder}`, `--window-size=${width},${height}`, 'about:blank'];
    const { child, input, output } = spawnBrowser(flags, this.folder, this.logFile());
    this.process = child;
    this.input = input;
    child.on('error', (fault) => this.end(fault.message));
    child.on('exit', () => this.end(this.whyEnded()));
    input.on('error', () => {}); // the exit of the process is reported
    process.on('exit', this.onProcessExit);
    this.readMessages(output);
  }

  /** Where the browser's standard error goes. */
  logFile() {
    return path.join(this.folder, 'said');
  }

  /** Why the browser ended, by what it wrote on standard error. */
  whyEnded() {
    const text = fs.existsSync(this.logFile()) ? fs.readFileSync(this.logFile(), 'utf8') : '';
    return text.includes('No usable sandbox') ? NO_SANDBOX : 'the browser ended';
  }

  /**
   * A message ends with a zero. A long one comes in many pieces, which are joined once.
   * @param {import('node:stream').Readable} output
   */
  readMessages(output) {
    /** @type {string[]} */
    let pieces = [];
    output.setEncoding('utf8');
    output.on('data', (/** @type {string} */ text) => {
      const ends = text.split('\0');
      const rest = ends.pop();
      for (const end of ends) {
        const message = [...pieces, end].join('');
        pieces = [];
        this.receiveText(message);
      }
      if (rest) pieces.push(rest);
    });
  }

  /** The first answer of the browser. Called by driven/flow-recorder.js and recording/recorder.js. */
  hasStarted() {
    return this.send('Browser.getVersion', {}, undefined, LONGEST_START);
  }

  /**
   * Sends a message of the protocol.
   * @param {string} text
   */
  write(text) {
    this.input?.write(`${text}\0`);
  }

  /** Kills the browser without waiting, as this process ends, and removes its temporary profile: nothing of a run is left over. */
  killNow() {
    try {
      if (this.process?.pid) process.kill(-this.process.pid, 'SIGKILL'); // the browser and its own processes, which are a group
    } catch {
      // they have ended
    }
    fs.rmSync(this.folder, { recursive: true, force: true, maxRetries: 10, retryDelay: 50 });
  }

  /** Ends the browser, and kills it if it does not end in time. */
  async close() {
    if (!this.process) return;
    const ended = this.isGone ? Promise.resolve() : new Promise((resolve) => { this.once('gone', resolve); });
    this.send('Browser.close', {}, undefined, LONGEST_END).catch(() => {}); // a browser that does not answer is killed
    await within(ended, LONGEST_END);
    process.off('exit', this.onProcessExit);
    this.killNow();
  }
}

module.exports = { Chromium, BrowserFault };
