'use strict';
// Only one recorder records a browser: its process number is in a file of the browser's profile. A second one, of a browser with the same `--user-data-dir`
// (profile directory), fails.

const fs = require('node:fs');
const path = require('node:path');
const { BrowserFault } = require('../browser/protocol.js');
const { isAlive } = require('./endpoint.js');

/** Is in the command line of each recorder: the number of one that was killed can be that of another process. */
const RECORDER = 'driven/main.js';

/** Made by driven/main.js. */
class ProfileLock {
  /** @param {string} profile the folder, which the browser has made */
  constructor(profile) {
    this.file = path.join(profile, 'er_recorder');
    this.isTaken = false;
  }

  /** Fails with a BrowserFault if another recorder has it. What a recorder that was killed has left is replaced. */
  take() {
    const other = this.holder();
    if (other) throw new BrowserFault(`another recorder (process ${other}) records this browser`);
    try {
      fs.rmSync(this.file, { force: true });
      fs.writeFileSync(this.file, `${process.pid}\n`, { flag: 'wx' });
      this.isTaken = true;
    } catch (fault) {
      if (this.holder()) throw new BrowserFault(`another recorder (process ${this.holder()}) records this browser`);
      if (!(fault instanceof Error) || !('code' in fault)) throw fault;
      // a profile that takes no file: the recorder works without its lock
    }
  }

  /** The process of the recorder that has the lock and lives, or 0. */
  holder() {
    try {
      const pid = Number(fs.readFileSync(this.file, 'utf8'));
      const isRecorder = pid && pid !== process.pid && isAlive(pid) && fs.readFileSync(`/proc/${pid}/cmdline`, 'utf8').includes(RECORDER);
      return isRecorder ? pid : 0;
    } catch {
      return 0; // there is no such file, or no such process
    }
  }

  /** Gives the lock back, if this process has it. */
  release() {
    if (this.isTaken) fs.rmSync(this.file, { force: true });
  }
}

module.exports = { ProfileLock };
