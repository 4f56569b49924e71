'use strict';
// Finds the port at which a browser that another process starts takes a client of its protocol. The file DevToolsActivePort.

const fs = require('node:fs');
const path = require('node:path');
const { BrowserFault } = require('../browser/protocol.js');
const { AttachedChromium } = require('../browser/attached.js');
const { sleep } = require('../common/time.js');

/** In milliseconds. The poll is short, as the driver may send its first page as soon as the port is there. */
const POLL = 3;
const LONGEST_START = 120000;

/**
 * Whether a process has ended, and its parent has not noted that yet, as the first process of a container never does.
 * @param {number} pid
 */
function hasEnded(pid) {
  try {
    return /^\d+ \(.*\) [ZX]/s.test(fs.readFileSync(`/proc/${pid}/stat`, 'utf8'));
  } catch {
    return false; // there is no such process
  }
}

/**
 * Called by profile-lock.js, trace-folder.js and suite-run.js.
 * @param {number} pid
 */
function isAlive(pid) {
  try {
    process.kill(pid, 0);
    return !hasEnded(pid);
  } catch (error) {
    return /** @type {NodeJS.ErrnoException} */ (error).code === 'EPERM'; // a process of another user
  }
}

/**
 * The port that the browser has written into its profile, or 0. A line without its end is not taken.
 * @param {string} profile
 */
function portIn(profile) {
  try {
    return Number(/^(\d+)\n/.exec(fs.readFileSync(path.join(profile, 'DevToolsActivePort'), 'utf8'))?.[1] || 0);
  } catch {
    return 0; // it has written none yet
  }
}

/**
 * Whether a browser answers at a port: asked again and again until it does, as it takes a while to start.
 * @param {{host: string, port: number}} endpoint
 */
async function listens(endpoint) {
  try {
    const browser = await AttachedChromium.connect(endpoint);
    browser.close();
    return true;
  } catch {
    return false; // nobody listens there, or not yet
  }
}

/**
 * Waits until the browser takes clients at its port, or ends.
 * Called by main.js.
 * @param {{port: number, profile: string, pid: number}} of the browser; port 0 is one that it picks itself
 * @returns {Promise<{host: string, port: number}>}
 */
async function findEndpoint({ port, profile, pid }) {
  for (const until = Date.now() + LONGEST_START; Date.now() < until; await sleep(POLL)) {
    const found = port || portIn(profile);
    const endpoint = { host: '127.0.0.1', port: found };
    if (found && (!port || await listens(endpoint))) return endpoint;
    if (!isAlive(pid)) throw new BrowserFault('the browser ended before it accepted a connection');
  }
  throw new BrowserFault('the browser accepted no connection in time');
}

module.exports = { findEndpoint, isAlive };
