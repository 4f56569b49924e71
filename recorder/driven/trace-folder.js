'use strict';
// The folder for the recordings of test suites (ER_TRACES): the names of the trace files of er_browser, and which recorders still write into it.

const fs = require('node:fs');
const path = require('node:path');
const { isAlive } = require('./endpoint.js');
const { sleep } = require('../common/time.js');

/** The file of a recorder that still writes, with its process number. In milliseconds, and characters of an address in the name of a file. */
const LOCK = /^\.recording-(\d+)$/;
const POLL = 50;
const LONGEST_SLUG = 60;
/** What a recorder has not written after so many milliseconds does not come. */
const LONGEST_WRITING = 60000;

/**
 * An address as a part of a file's name. Called by many-pages.js.
 * @param {string} address
 */
function slugOf(address) {
  const words = address.replace(/^\w+:\/*/, '').replace(/[?#].*$/, '').replace(/\.x?html?$/, '').replace(/[^\w.-]+/g, '-').replace(/^-|-$/g, '');
  return words.length > LONGEST_SLUG ? words.slice(-LONGEST_SLUG) : words || 'page';
}

/** Made by driven/main.js and page-flow.js. */
class TraceFolder {
  /**
   * @param {string} log the file for the recorder's messages, which `launch` names by date and process: recordings have its name, then a number and the address
   * @param {import('./load.js').TestFacts} test
   */
  constructor(log, test) {
    this.folder = path.dirname(log);
    this.name = path.basename(log, '.log');
    this.test = test;
    this.lockFile = path.join(this.folder, `.recording-${process.pid}`);
  }

  /** Says that a recorder writes into the folder. Called by main.js. */
  lock() {
    fs.writeFileSync(this.lockFile, '');
  }

  /** Says that this recorder writes no more. Called by main.js. */
  unlock() {
    fs.rmSync(this.lockFile, { force: true });
  }

  /**
   * The file for the trace of a load. Called by browser-recorder.js.
   * @param {number} number
   * @param {string} address
   */
  fileFor(number, address) {
    return path.join(this.folder, `${this.name}-${String(number).padStart(3, '0')}-${slugOf(address)}.trace`);
  }
}

/** The processes of recorders that write into a folder. */
const writersOf = (/** @type {string} */ folder) => fs.readdirSync(folder).map((name) => Number(LOCK.exec(name)?.[1] || 0)).filter((pid) => pid && isAlive(pid));

/**
 * Waits until no recorder writes into a folder any more. Returns false if that took longer than `longest` milliseconds. Called by index-task.js, suite-run.js
 * and suite.js.
 * @param {string} folder
 * @param {number} longest
 */
async function waitForWriters(folder, longest = LONGEST_WRITING) {
  for (const until = Date.now() + longest; Date.now() < until; await sleep(POLL)) {
    if (!writersOf(folder).length) return true;
  }
  return false;
}

const tracesIn = (/** @type {string} */ folder) => fs.readdirSync(folder).filter((name) => /^[^.].*\.trace$/.test(name)).sort().map((name) => path.join(folder, name));

module.exports = { TraceFolder, waitForWriters, tracesIn, slugOf };
