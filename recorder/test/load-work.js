#!/usr/bin/env node
'use strict';
// load-work.js [--times N] [--into FILE] [--heading WORDS] PAGE..: what a load costs in processor time and in messages, with and without the recorder, alternately; each figure is
// the least of N loads (8). Other work of the machine does not count, so a busy machine gives nearly the same figures. By hand. A PAGE is as for profile.js.

const { parseOptions } = require('../recording/options.js');
const { Recorder } = require('../recording/recorder.js');
require('./cleanup.js');
const { measuredOf, tableOf, writeSection } = require('./measured-pages.js');

/**
 * @typedef {import('./measured-pages.js').MeasuredPage} MeasuredPage
 * @typedef {{[figure: string]: number}} Work of one load
 */

/** The renderer's own figures, in seconds of its main thread. */
const RENDERER = { script: 'ScriptDuration', compiling: 'V8CompileDuration', layout: 'LayoutDuration', styles: 'RecalcStyleDuration', tasks: 'TaskDuration' };
const KILOBYTE = 1024;
const MILLISECONDS = 1000;

class WorkedRecorder extends Recorder {
  /** @type {Work} */
  work = {};

  async prepareTab() {
    await super.prepareTab();
    await this.openTab().send('Performance.enable', { timeDomain: 'threadTicks' });
  }

  async load() {
    const counted = countMessages(this.openTab().browser);
    const before = process.cpuUsage();
    const processes = await this.processorTimes();
    await super.load();
    const { user, system } = process.cpuUsage(before);
    const after = await this.processorTimes();
    this.work = {
      ...await this.ofRenderer(),
      browser: after.browser - processes.browser,
      node: (user + system) / MILLISECONDS,
      ...counted(),
      'load, ms': this.loadTime || 0,
    };
    this.isUsed = true;
  }

  /** Nothing after the load counts. */
  async useAndWait() {
    return true;
  }

  /** @returns {Promise<Work>} the milliseconds of processor time that each kind of process has used */
  async processorTimes() {
    const { processInfo } = await this.openTab().browser.send('SystemInfo.getProcessInfo');
    /** @type {Work} */
    const times = { browser: 0, renderer: 0 };
    for (const { type, cpuTime } of processInfo) times[type] = (times[type] || 0) + cpuTime * MILLISECONDS;
    return times;
  }

  /** @returns {Promise<Work>} */
  async ofRenderer() {
    const { metrics } = await this.openTab().send('Performance.getMetrics');
    const valueOf = (/** @type {string} */ wanted) => metrics.find((/** @type {{name: string}} */ { name }) => name === wanted)?.value || 0;
    return Object.fromEntries(Object.entries(RENDERER).map(([figure, name]) => [figure, valueOf(name) * MILLISECONDS]));
  }
}

/**
 * Counts the messages of the protocol from now on; returns what reports their number and size.
 * @param {import('../browser/protocol.js').Protocol} browser
 */
function countMessages(browser) {
  let [sent, received, bytes] = [0, 0, 0];
  const { write, receiveText } = browser;
  browser.write = (text) => { sent++; bytes += text.length; write.call(browser, text); };
  browser.receiveText = (text) => { received++; bytes += text.length; receiveText.call(browser, text); };
  return () => {
    browser.write = write;
    browser.receiveText = receiveText;
    return { sent, received, KB: bytes / KILOBYTE };
  };
}

/**
 * @param {MeasuredPage} page
 * @param {boolean} isRaw
 */
async function workOf({ page, words }, isRaw) {
  const recorder = new WorkedRecorder(page, { ...parseOptions(words), isRaw, clicks: 0, slow: 0, actions: [] });
  await recorder.record();
  return recorder.work;
}

/**
 * The least of each figure.
 * @param {Work[]} all
 */
function leastOf(all) {
  const figures = Object.keys(all[0]);
  return Object.fromEntries(figures.map((figure) => [figure, Math.min(...all.map((one) => one[figure]))]));
}

/**
 * @param {MeasuredPage} page
 * @param {number} times
 */
async function measure(page, times) {
  /** @type {{plain: Work[], recorded: Work[]}} */
  const works = { plain: [], recorded: [] };
  for (let k = 0; k < times; k++) {
    works.plain.push(await workOf(page, true));
    works.recorded.push(await workOf(page, false));
  }
  return { name: page.name, plain: leastOf(works.plain), recorded: leastOf(works.recorded) };
}

/** @param {string[]} words */
async function main(words) {
  const left = [...words];
  const heading = left.includes('--heading') ? left.splice(left.indexOf('--heading'), 2)[1] : 'The work of a load';
  const { pages, into, times } = measuredOf(left);
  /** @type {(string|number)[][]} */
  const rows = [];
  /** @type {string[]} */
  let figures = [];
  for (const page of pages) {
    const { name, plain, recorded } = await measure(page, times);
    figures = Object.keys(plain);
    rows.push([name, ...figures.map((figure) => `${Math.round(plain[figure])}, ${Math.round(recorded[figure])}`)]);
    console.log(`${name}: ${figures.map((figure) => `${figure} ${Math.round(plain[figure])}, ${Math.round(recorded[figure])}`).join('; ')}`);
  }
  const text = `By \`recorder/test/load-work.js\`, the least of ${times} loads each without and with the recorder, in milliseconds of processor time: the main thread of the page `
    + `(all its tasks; of these scripts, compiling, layout and styles), the browser's own process, Node; then the messages of the protocol and their size; last the time to the end `
    + `of load, in which other work of the machine counts. In each cell: without the recorder, with it.\n\n${tableOf(['Page', ...figures], rows)}`;
  if (into) writeSection(into, heading, text, 'The time of a load under the recorder');
}

if (require.main === module) main(process.argv.slice(2));
