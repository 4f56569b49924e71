'use strict';
// A small test suite over a page with two races: node order_suite.js BROWSER ORIGIN. Each of its tests fails if a race comes in the other order.

const assert = require('node:assert');
const { Driver } = require('./protocol_driver.js');

/** @param {string[]} words */
async function main([browser, origin]) {
  const driver = await Driver.launch(browser);
  process.on('exit', () => driver.killNow());
  const tab = await driver.newTab();
  await tab.load(`${origin}/order`);
  await tab.waitForValue('came === 2 && answers === 2');
  const found = await tab.value("({ chosen, picked })");
  await driver.close();
  assert.deepStrictEqual(found, { chosen: 'late', picked: 'answered' });
  console.log('ok order');
}

main(process.argv.slice(2)).catch((fault) => { console.error(fault); process.exit(1); });
