#!/usr/bin/env node
'use strict';
// packaged-heap.js [PACKAGE..]: how much memory (heap) pages of Debian packages (packaged.json; those that are installed) use once they are loaded,
// without the recorder, with global variables alone, and with objects. Each is loaded once, and the garbage is collected before.

const { Chromium } = require('../browser/chromium.js');
const { parseOptions } = require('../recording/options.js');
const { Recorder } = require('../recording/recorder.js');
require('./cleanup.js');
const { readPackaged, isInstalled } = require('./packaged-pages.js');

/** @type {{[kind: string]: string[]}} */
const KINDS = { without: ['--raw'], globals: ['--depth', 'globals'], objects: [] };
const MEGABYTE = 1 << 20;

class Measuring extends Recorder {
  heap = 0;

  async useAndWait() {
    await this.rest.waitForQuiet();
    if (!this.tab) throw new Error('there is no tab');
    await this.tab.send('HeapProfiler.collectGarbage');
    this.heap = (await this.tab.send('Runtime.getHeapUsage')).usedSize;
    return true;
  }
}

/**
 * @param {Chromium} browser
 * @param {import('./packaged-pages.js').PackagedPage} page
 * @param {string[]} words
 */
async function heapOf(browser, { page, root = '/usr/share' }, words) {
  const recorder = new Measuring(page, { ...parseOptions([...words, '--root', root, page]), browser });
  await recorder.record();
  return recorder.heap;
}

/** @param {string[]} only */
async function main(only) {
  for (const one of readPackaged(only).filter(isInstalled)) {
    /** @type {{[kind: string]: number}} */
    const sizes = {};
    for (const [kind, words] of Object.entries(KINDS)) {
      const browser = await Chromium.launch({ width: 1100, height: 800 });
      try {
        sizes[kind] = await heapOf(browser, one, words);
      } finally {
        await browser.close();
      }
    }
    const told = Object.entries(sizes).map(([kind, size]) => `${kind} ${(size / MEGABYTE).toFixed(1)} MB`);
    console.log(`${one.package}: ${told.join(', ')}: ${(sizes.objects / sizes.without).toFixed(1)} times`);
  }
}

main(process.argv.slice(2));
