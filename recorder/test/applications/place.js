'use strict';
// Where an application runs: a temporary folder with its store, and its servers. All of it ends with the process, also after a signal.

const { spawn } = require('node:child_process');
const fs = require('node:fs');
const http = require('node:http');
const net = require('node:net');
const os = require('node:os');
const path = require('node:path');
const { run } = require('../cleanup.js');
const { sleep } = require('../../common/time.js');

/** @typedef {import('node:child_process').SpawnOptions} SpawnOptions */

const LONGEST_CALL = 180000;
const LONGEST_START = 120000;
const LONGEST_END = 5000;
const SHORT = 100;

/** @type {Set<Place>} */
const places = new Set();
process.on('exit', () => places.forEach((place) => place.remove()));

/** @returns {Promise<number>} a port of the loopback interface that nobody listens at */
function freePort() {
  return new Promise((resolve, reject) => {
    const server = net.createServer().on('error', reject);
    server.listen(0, '127.0.0.1', () => {
      const { port } = /** @type {net.AddressInfo} */ (server.address());
      server.close(() => resolve(port));
    });
  });
}

class Place {
  /** @param {string} name */
  constructor(name) {
    this.folder = fs.mkdtempSync(path.join(os.tmpdir(), `er-${name}-`));
    this.log = path.join(this.folder, 'servers.log');
    /** @type {{child: import('node:child_process').ChildProcess, command: string}[]} */
    this.servers = [];
    places.add(this);
  }

  /** @param {string[]} names */
  path(...names) {
    return path.join(this.folder, ...names);
  }

  /**
   * A new folder.
   * @param {string[]} names
   */
  newFolder(...names) {
    const folder = this.path(...names);
    fs.mkdirSync(folder, { recursive: true });
    return folder;
  }

  /**
   * Writes a file, and answers its path.
   * @param {string} name
   * @param {string|object} content  an object is written as JSON
   */
  write(name, content) {
    const file = this.path(name);
    fs.mkdirSync(path.dirname(file), { recursive: true });
    fs.writeFileSync(file, typeof content === 'string' ? content : JSON.stringify(content));
    return file;
  }

  /**
   * Copies files of a package into the folder. Links are followed, so that nothing is written into what is installed; those to missing files are left out.
   * @param {string} from
   * @param {string} name
   */
  async copy(from, name) {
    const { status, stderr } = await run('cp', ['-rL', from, this.path(name)], { longest: LONGEST_CALL });
    const faults = stderr.split('\n').filter((line) => line && !/cannot stat/.test(line));
    if (faults.length || (status && !fs.existsSync(this.path(name)))) throw new Error(faults[0] || stderr);
    return this.path(name);
  }

  /**
   * Runs a command to its end, with the folder as its home.
   * @param {string} program
   * @param {string[]} args
   * @param {SpawnOptions} options
   */
  async run(program, args, options = {}) {
    const { status, stdout, stderr } = await run(program, args, { longest: LONGEST_CALL, ...this.options(options) });
    if (status !== 0) throw new Error(`${path.basename(program)}: status ${status}: ${(stderr || stdout).trim().split('\n').slice(-1)[0]}`);
    return stdout;
  }

  /** @param {SpawnOptions} options */
  options({ env, ...options }) {
    return { cwd: this.folder, ...options, env: { ...process.env, HOME: this.folder, TMPDIR: this.folder, ...env } };
  }

  /**
   * Starts a server in a group of processes of its own.
   * @param {string} program
   * @param {string[]} args
   * @param {SpawnOptions} options
   */
  serve(program, args, options = {}) {
    const log = fs.openSync(this.log, 'a');
    const child = spawn(program, args, { ...this.options(options), detached: true, stdio: ['ignore', log, log] });
    fs.closeSync(log);
    child.on('error', (fault) => fs.appendFileSync(this.log, `${fault.message}\n`));
    this.servers.push({ child, command: path.basename(program) });
  }

  /**
   * Waits until an address answers, or a file is there.
   * @param {string} target
   */
  async ready(target) {
    const end = Date.now() + LONGEST_START;
    while (!await isReady(target)) {
      const ended = this.servers.find(({ child }) => child.exitCode !== null || child.signalCode !== null || !child.pid);
      if (ended) throw new Error(`${ended.command} ended: ${this.lastWords()}`);
      if (Date.now() > end) throw new Error(`${target} does not answer: ${this.lastWords()}`);
      await sleep(SHORT);
    }
  }

  /** The last line of the servers. */
  lastWords() {
    return fs.readFileSync(this.log, 'utf8').trim().split('\n').slice(-1)[0];
  }

  /** Ends the servers, the last one first, and removes the folder. */
  async end() {
    for (const { child } of [...this.servers].reverse()) {
      signal(child, 'SIGTERM');
      const end = Date.now() + LONGEST_END;
      while (isAlive(child) && Date.now() < end) await sleep(SHORT);
    }
    this.remove();
  }

  remove() {
    places.delete(this);
    this.servers.forEach(({ child }) => signal(child, 'SIGKILL'));
    fs.rmSync(this.folder, { recursive: true, force: true, maxRetries: 10, retryDelay: 50 });
  }
}

/**
 * @param {string} target
 * @returns {Promise<boolean>}
 */
async function isReady(target) {
  if (!target.startsWith('http')) return fs.existsSync(target);
  return new Promise((resolve) => {
    const request = http.get(target, { timeout: LONGEST_END }, (response) => resolve(!!response.resume()));
    request.on('timeout', () => request.destroy()).on('error', () => resolve(false));
  });
}

/**
 * Whether a process of a server's group runs.
 * @param {import('node:child_process').ChildProcess} child
 */
const isAlive = (child) => signal(child, 0);

/**
 * Sends a signal to the group of a server, and answers whether there is one.
 * @param {import('node:child_process').ChildProcess} child
 * @param {NodeJS.Signals|0} name
 */
function signal({ pid }, name) {
  try {
    return !!pid && process.kill(-pid, name);
  } catch {
    return false;
  }
}

module.exports = { Place, freePort };
