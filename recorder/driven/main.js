'use strict';
// The recorder beside a browser that a test suite drives: node main.js BROWSER DRIVER PORT PROFILE READY LOG [PAGE..]. `launch` starts it; it ends with the browser.

const fs = require('node:fs');
const path = require('node:path');
const { print } = require('../common/output.js');
const { AttachedChromium } = require('../browser/attached.js');
const { parseOptions, UsageFault } = require('../recording/options.js');
const { BrowserRecorder } = require('./browser-recorder.js');
const { complain, faultInWords } = require('./complaints.js');
const { findEndpoint } = require('./endpoint.js');
const { readPlan } = require('./hold-plan.js');
const { ProfileLock } = require('./profile-lock.js');
const { TraceFolder } = require('./trace-folder.js');

/** A load is recorded for at most so many seconds, where ER_OPTIONS does not say otherwise. */
const LONGEST_LOAD = 600;

/**
 * The options of ER_OPTIONS, as er_record takes them.
 * @param {string} words
 */
function optionsOf(words) {
  const options = parseOptions(words.split(/\s+/).filter(Boolean));
  return { ...options, time: /(^|\s)--time(\s|$)/.test(words) ? options.time : LONGEST_LOAD, isDriven: true };
}

/**
 * What Linux says of a process, for the file that names who started the browser; null if it has ended.
 * @param {number} pid
 */
function processOf(pid) {
  try {
    const words = fs.readFileSync(`/proc/${pid}/cmdline`, 'utf8').split('\0').filter(Boolean);
    const [, parent] = /^\d+ \(.*\) \S (\d+)/s.exec(fs.readFileSync(`/proc/${pid}/stat`, 'utf8')) || [];
    return { pid, words: words.join(' ').slice(0, 200), parent: Number(parent) };
  } catch {
    return null; // it has ended
  }
}

/**
 * The process that started the browser, or the chromedriver that did.
 * @param {number} pid
 * @returns {import('./load.js').TestFacts}
 */
function testOf(pid) {
  const driver = processOf(pid);
  const asked = driver && /chromedriver/.test(driver.words.split(' ')[0]) && processOf(driver.parent);
  const { words = '' } = asked || driver || {};
  return { pid: (asked || driver || { pid }).pid, words, ...(process.env.ER_TEST ? { name: process.env.ER_TEST } : {}) };
}

/**
 * Records until the browser ends. `driven/launch` starts this process with these words, and waits for the file READY.
 * @param {string[]} words
 */
async function main([browserPid, driverPid, port, profile, ready, log, ...pages]) {
  const tellReady = () => { if (fs.existsSync(path.dirname(ready))) fs.writeFileSync(ready, ''); };
  process.on('exit', tellReady); // the driver waits no longer
  const options = optionsOf(process.env.ER_OPTIONS || '');
  const folder = new TraceFolder(log, testOf(Number(driverPid)));
  const lock = new ProfileLock(profile);
  folder.lock();
  try {
    const endpoint = await findEndpoint({ port: Number(port), profile, pid: Number(browserPid) });
    lock.take();
    const browser = await AttachedChromium.connect(endpoint);
    const recorder = new BrowserRecorder(browser, folder, options, complain, process.env.ER_HOLD ? readPlan(process.env.ER_HOLD) : null);
    await recorder.start();
    tellReady();
    await recorder.open(pages);
    await recorder.hasEnded;
    print(`er_browser: ${recorder.written} page loads recorded`);
  } finally {
    lock.release();
    folder.unlock();
  }
}

process.stdout.on('error', () => {}); // the log is on a full disk
main(process.argv.slice(2)).catch((fault) => {
  complain(fault instanceof UsageFault ? `ER_OPTIONS: ${fault.message}` : `nothing more is recorded: ${faultInWords(fault)}`);
  process.exitCode = 1;
}).finally(() => process.exit());
