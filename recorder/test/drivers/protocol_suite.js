'use strict';
// A small test suite over the protocol: node protocol_suite.js BROWSER ORIGIN pipe|port [close|kill]. Prints a line for each test, then how long it took.

const assert = require('node:assert');
const { Driver, waitFor } = require('./protocol_driver.js');

/**
 * @typedef {import('./protocol_driver.js').Tab} Tab
 */

/**
 * @param {Driver} driver
 * @param {string} origin
 */
async function shop(driver, origin) {
  const tab = await driver.newTab();
  for (const word of ['tea', 'salt']) {
    await tab.load(`${origin}/shop/index.html?${word}`);
    await tab.type('#search', word);
    await tab.click('#add');
    await tab.waitForValue("Number(document.getElementById('count').textContent) > 0");
  }
  await tab.close();
}

/**
 * @param {Driver} driver
 * @param {string} origin
 */
async function account(driver, origin) {
  const tab = await driver.newTab();
  await tab.load(`${origin}/account`);
  assert.strictEqual(await tab.value('document.title'), 'Log in');
  await tab.type('#name', 'me');
  await tab.click('#go');
  await tab.waitForValue("document.title === 'Account' && document.readyState === 'complete'");
  await tab.click('#more');
  await tab.waitForValue('orders >= 3');
  assert.strictEqual(await tab.value('ofTheDriver'), 1);
  await tab.value("orders = orders + 0; show(); document.getElementById('more').click()");
  await tab.click('#tab');
  return tab;
}

/**
 * @param {Driver} driver
 * @param {Tab} tab
 */
async function popup(driver, tab) {
  const before = driver.tabs.length;
  await tab.click('#help');
  const opened = await waitFor(() => driver.tabs[before], 'the window');
  await opened.waitForValue("document.title === 'Help, read' && document.getElementById('answer').textContent === 'orders'");
  await opened.close();
}

/**
 * The driver answers a script, a page and a request for data itself.
 * @param {Driver} driver
 * @param {string} origin
 */
async function routed(driver, origin) {
  const tab = await driver.newTab();
  await tab.answer('/mock.js', 'text/javascript', 'var mocked = 0; setTimeout(function one() { mocked = 1; }, 1); fetch("/mock.json").then(function two() { mocked = 2; });');
  await tab.answer('/mock.json', 'application/json', '{}');
  await tab.answer('/mock.html', 'text/html', '<!doctype html><script>var ofPage = 1; setTimeout(function late() { ofPage = 2; }, 1);</script><script src="/mock.js"></script>');
  await tab.load(`${origin}/mock.html`);
  await tab.waitForValue('mocked > 0 && ofPage === 2');
  return tab;
}

/** @param {string[]} words */
async function main([browser, origin, carrier, end = 'close']) {
  const begin = Date.now();
  const driver = await Driver.launch(browser, { isOverPort: carrier === 'port' });
  process.on('exit', () => driver.killNow());
  await shop(driver, origin);
  console.log('ok shop');
  const tab = await account(driver, origin);
  console.log('ok account');
  await popup(driver, tab);
  console.log('ok popup');
  await routed(driver, origin);
  console.log('ok routed');
  const ended = await (end === 'kill' ? driver.kill() : driver.close());
  console.log(`${end}: ${JSON.stringify(ended)}`);
  console.log(`${((Date.now() - begin) / 1000).toFixed(2)} s`);
}

main(process.argv.slice(2)).catch((fault) => { console.error(fault); process.exit(1); });
