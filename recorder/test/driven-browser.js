'use strict';
// A Chromium that a test drives, as another program would: for recordings of what such a program loads.

const { spawn } = require('node:child_process');
const net = require('node:net');
const path = require('node:path');
const { AttachedChromium, AttachedTab } = require('../browser/attached.js');
const { sleep } = require('../common/time.js');
const { listen } = require('./server.js');

const CHROMIUM = process.env.CHROMIUM || '/usr/bin/chromium';

/** A port of this machine at which nothing listens. */
async function freePort() {
  const one = net.createServer();
  const port = await listen(one);
  await new Promise((resolve) => one.close(resolve));
  return port;
}

/**
 * Waits until there is something.
 * @template T
 * @param {() => T|null|false|Promise<T|null|false>} find
 * @param {string} what
 * @returns {Promise<T>}
 */
async function waitFor(find, what) {
  for (let k = 0; k < 600; k++) {
    const found = await find();
    if (found) return found;
    await sleep(100);
  }
  throw new Error(`waited in vain for ${what}`);
}

/**
 * Starts a browser that the test drives over its port, as a driver does.
 * @param {string} folder for its profile
 * @param {string} name of the profile
 */
async function startDriven(folder, name) {
  const port = await freePort();
  const words = ['--headless', '--no-sandbox', '--disable-gpu', '--no-first-run', `--remote-debugging-port=${port}`, `--user-data-dir=${path.join(folder, name)}`, 'about:blank'];
  const browser = spawn(CHROMIUM, words, { stdio: 'ignore' });
  process.on('exit', () => browser.kill('SIGKILL'));
  const driver = await waitFor(() => AttachedChromium.connect({ host: '127.0.0.1', port }).catch(() => null), 'the browser');
  const tab = await waitFor(() => AttachedTab.first(driver).catch(() => null), 'its tab');
  await tab.send('Page.enable');
  return { port, driver, tab, end: () => driver.send('Browser.close').catch(() => {}) };
}

/**
 * Loads a page in a tab, as a driver does.
 * @param {import('../browser/tab.js').Tab} tab
 * @param {string} to
 */
async function load(tab, to) {
  const loaded = new Promise((resolve) => tab.on('Page.loadEventFired', resolve));
  await tab.send('Page.navigate', { url: to });
  await loaded;
}

module.exports = { freePort, waitFor, startDriven, load };
