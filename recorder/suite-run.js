'use strict';
// One run of a suite's own command, which records into a folder of its own: what it held back, how it ended, and its traces. The test command is spawned in a
// process group.

const { spawn } = require('node:child_process');
const fs = require('node:fs');
const path = require('node:path');
const { jsonText } = require('./common/shown.js');
const { makeFolder, writeWhole } = require('./common/whole-file.js');
const { isAlive } = require('./driven/endpoint.js');
const { waitForWriters, tracesIn } = require('./driven/trace-folder.js');

/** @typedef {import('./driven/hold-plan.js').Plan} Plan */
/**
 * A run that is over. `status` is that of the command, or 128 and the number of its signal.
 * @typedef {{status: number, isLate: boolean, isStopped: boolean, seconds: number, traces: string[], output: string, plan: Plan}} Ended
 */

/** Milliseconds that a command gets to end after a signal, and then its recorders to write. */
const LONGEST_END = 5000;
const SIGNALLED = 128;
/** In the command line of each recorder: it ends with its browser, once it has written. */
const RECORDER = 'driven/main.js';

/** @param {string} file */
function readOrEmpty(file) {
  try {
    return fs.readFileSync(file, 'utf8');
  } catch {
    return ''; // the process has ended, or is another user's
  }
}

/** Made by SuiteReplays for each run. */
class SuiteRun {
  /**
   * @param {string} command
   * @param {string} folder
   * @param {Plan} plan
   * @param {number} seconds the limit
   */
  constructor(command, folder, plan, seconds) {
    this.command = command;
    this.folder = folder;
    this.plan = plan;
    this.seconds = seconds;
    this.planFile = path.resolve(folder, 'hold.json');
    this.isLate = false;
    this.isStopped = false;
    /** @type {import('node:child_process').ChildProcess|null} */
    this.child = null;
    this.hasEnded = false;
  }

  /**
   * Runs the command, and waits until its recorders have written.
   * @returns {Promise<Ended>}
   */
  async run() {
    const output = path.join(this.folder, 'output.txt');
    makeFolder(this.folder);
    writeWhole(this.planFile, `${jsonText(this.plan, 1)}\n`);
    const begin = Date.now();
    const status = await this.runCommand(output);
    if (this.isLate || this.isStopped) await this.endRest();
    await waitForWriters(this.folder, this.isStopped ? LONGEST_END : undefined);
    const { isLate, isStopped, plan } = this;
    return { status, isLate, isStopped, seconds: (Date.now() - begin) / 1000, traces: tracesIn(this.folder), output, plan };
  }

  /**
   * Runs the command in a process group of its own, which a signal to all of it ends.
   * @param {string} output the file for what it prints
   * @returns {Promise<number>}
   */
  async runCommand(output) {
    const file = fs.openSync(output, 'w');
    const env = { ...process.env, ER_TRACES: path.resolve(this.folder), ER_HOLD: this.planFile };
    const child = spawn('/bin/sh', ['-c', this.command], { env, detached: true, stdio: ['ignore', file, file] });
    this.child = child;
    const limit = setTimeout(() => { this.isLate = true; this.end(); }, this.seconds * 1000);
    try {
      return await new Promise((resolve, reject) => {
        child.on('error', reject);
        child.on('exit', (status, signal) => resolve(status ?? SIGNALLED + (signal ? require('node:os').constants.signals[signal] : 0)));
      });
    } finally {
      this.hasEnded = true;
      clearTimeout(limit);
      fs.closeSync(file);
    }
  }

  /** Ends the command before its end. */
  stop() {
    this.isStopped = true;
    this.end();
  }

  end() {
    this.signal('SIGTERM');
    setTimeout(() => { if (!this.hasEnded) this.signal('SIGKILL'); }, LONGEST_END).unref();
  }

  /**
   * Sends a signal to the command and all that it started.
   * @param {NodeJS.Signals} signal
   */
  signal(signal) {
    try {
      if (this.child?.pid) process.kill(-this.child.pid, signal);
    } catch {
      // they have ended
    }
  }

  /** Ends what a command leaves that was stopped: a browser can have a process group of its own. All have its ER_HOLD. */
  async endRest() {
    const mark = `ER_HOLD=${this.planFile}\0`;
    const isOfRun = (/** @type {string} */ pid) => `${readOrEmpty(`/proc/${pid}/environ`)}\0`.includes(mark) && !readOrEmpty(`/proc/${pid}/cmdline`).includes(RECORDER);
    for (const pid of fs.readdirSync('/proc').filter((name) => /^\d+$/.test(name) && isOfRun(name))) {
      try {
        if (isAlive(Number(pid))) process.kill(Number(pid), 'SIGKILL');
      } catch {
        // it has ended
      }
    }
  }
}

module.exports = { SuiteRun };
