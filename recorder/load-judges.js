'use strict';
// Page loads analyzed by several processes: half of the processors. Each has few traces at once in memory. A pool of child processes. So many loads er_suite
// analyzes at the same time.

const { fork } = require('node:child_process');
const os = require('node:os');
const path = require('node:path');
const { CommandFault } = require('./command.js');
const { STATUS } = require('./common/status.js');

/** @typedef {import('./load-judge.js').Answer} Answer */
/** @typedef {import('./load-judge.js').Start} Start */

const JUDGE = path.join(__dirname, 'load-judge.js');
/** Megabytes: a trace at its limits needs more than the default of a process. */
const FLAGS = ['--max-old-space-size=4096'];
/** So many traces are in the memory of each process: one is written while the analyzer reads the next one. */
const AT_ONCE = 2;
const MOST = 4;

const processes = () => Math.max(1, Math.min(MOST, Math.floor(os.cpus().length / 2)));

/** A process, and who waits for its answers. */
class Judge {
  /** @param {Start} start */
  constructor(start) {
    /** @type {Map<number, {resolve: (answer: Answer) => void, reject: (fault: Error) => void}>} */
    this.waiting = new Map();
    this.child = fork(JUDGE, [], { execArgv: FLAGS, serialization: 'advanced', stdio: ['ignore', 'ignore', 'pipe', 'ipc'] });
    this.child.stderr?.on('data', (piece) => process.stderr.write(piece));
    this.child.on('message', (/** @type {Answer} */ answer) => this.take(answer));
    this.child.on('error', (fault) => this.fail(fault.message));
    /** @type {Promise<void>} */
    this.ended = new Promise((resolve) => {
      this.child.on('exit', (status, signal) => {
        this.fail(`it ended with ${signal || `status ${status}`}`);
        resolve();
      });
    });
    this.child.send(start, () => {});
  }

  /** @param {Answer} answer */
  take(answer) {
    const { resolve, reject } = this.waiting.get(answer.number) || {};
    this.waiting.delete(answer.number);
    if (answer.fault === undefined) resolve?.(answer);
    else reject?.(answer.status === STATUS.internal ? new Error(answer.fault) : new CommandFault(answer.fault, answer.status));
  }

  /** @param {string} why */
  fail(why) {
    this.waiting.forEach(({ reject }) => reject(new CommandFault(`a process that analyzes page loads failed: ${why}`, STATUS.failed)));
    this.waiting.clear();
  }

  /**
   * @param {number} number
   * @param {string} file
   * @returns {Promise<Answer>}
   */
  judge(number, file) {
    return new Promise((resolve, reject) => {
      this.waiting.set(number, { resolve, reject });
      this.child.send({ number, file }, (fault) => fault && this.fail(fault.message));
    });
  }
}

/** Made by loads.js. */
class LoadJudges {
  /** @param {Start} start */
  constructor(start) {
    this.judges = Array.from({ length: processes() }, () => new Judge(start));
    this.atOnce = AT_ONCE * this.judges.length;
  }

  /**
   * Has a load analyzed by the process with the fewest ones. Loads must be given in their order.
   * @param {number} number
   * @param {string} file
   */
  judge(number, file) {
    const [judge] = [...this.judges].sort((a, b) => a.waiting.size - b.waiting.size);
    return judge.judge(number, file);
  }

  async end() {
    this.judges.forEach(({ child }) => { if (child.connected) child.disconnect(); });
    await Promise.all(this.judges.map(({ child, ended }) => (child.pid === undefined ? null : ended)));
  }
}

module.exports = { LoadJudges };
