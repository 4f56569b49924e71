#!/usr/bin/env node
'use strict';
// screenshot.js FILE.html OUT.png WIDTH HEIGHT [SCRIPT]: a picture of a view, after a script ran in it. For docs/images.

const fs = require('node:fs');
const path = require('node:path');
const { pathToFileURL } = require('node:url');
const { Chromium } = require('../browser/chromium.js');
const { Tab } = require('../browser/tab.js');

/** @param {string[]} args */
async function main([file, picture, width, height, script]) {
  const size = { width: Number(width), height: Number(height) };
  const browser = await Chromium.launch(size);
  try {
    const tab = await Tab.open(browser, size);
    await tab.send('Page.enable');
    await tab.send('Emulation.setDeviceMetricsOverride', { ...size, deviceScaleFactor: 1, mobile: false });
    const loaded = new Promise((resolve) => tab.on('Page.loadEventFired', resolve));
    await tab.send('Page.navigate', { url: pathToFileURL(path.resolve(file)).href });
    await loaded;
    if (script) await tab.evaluate(script);
    await new Promise((resolve) => setTimeout(resolve, 300));
    const { data } = await tab.send('Page.captureScreenshot', { format: 'png' });
    fs.writeFileSync(picture, Buffer.from(data, 'base64'));
  } finally {
    await browser.close();
  }
}

main(process.argv.slice(2));
