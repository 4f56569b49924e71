#!/usr/bin/env node
'use strict';
// profile.js [--into FILE] [--times N] PAGE..: where the time of a load under the recorder goes, in the page and in the recorder's process. By hand. A PAGE
// is a package of packaged.json (`packaged`: all), a file of pages/, a file or an address. FILE is docs/measured/profile.md.

const { Session: Inspector } = require('node:inspector');
const { parseOptions } = require('../recording/options.js');
const { pageScript, SCRIPT_NAME } = require('../recording/page-script.js');
const { Recorder } = require('../recording/recorder.js');
require('./cleanup.js');
const { measuredOf, tableOf, writeSection } = require('./measured-pages.js');
const { pageGroups, processGroups } = require('./profile/groups.js');
const { timesByGroup, hottest } = require('./profile/sampled.js');

/**
 * @typedef {import('./measured-pages.js').MeasuredPage} MeasuredPage
 * @typedef {import('./profile/sampled.js').Profile} Profile
 * @typedef {{name: string, plain: number, recorded: number, page: Map<string, number>, process: Map<string, number>}} Profiled
 */

const INTERVAL = 200;
const MOST_FUNCTIONS = 12;
const LEAST_SHOWN = 2;

/** A recorder whose page, and whose own process, are sampled until the page is loaded. */
class ProfiledRecorder extends Recorder {
  inspector = new Inspector();

  /** @type {{page: Profile, process: Profile}|null} */
  profiles = null;

  async prepareTab() {
    await super.prepareTab();
    const tab = this.openTab();
    await tab.send('Profiler.enable');
    await tab.send('Profiler.setSamplingInterval', { interval: INTERVAL });
    this.inspector.connect();
    this.inspector.post('Profiler.enable');
    this.inspector.post('Profiler.setSamplingInterval', { interval: INTERVAL });
    await tab.send('Profiler.start');
    await this.ask('Profiler.start');
  }

  async load() {
    await super.load();
    const { profile } = await this.openTab().send('Profiler.stop');
    this.profiles = { page: profile, process: (await this.ask('Profiler.stop')).profile };
    this.inspector.disconnect();
  }

  /**
   * @param {string} method
   * @returns {Promise<any>}
   */
  ask(method) {
    return new Promise((resolve, reject) => {
      this.inspector.post(method, (/** @type {Error|null} */ fault, /** @type {any} */ answer) => (fault ? reject(fault) : resolve(answer)));
    });
  }
}

/**
 * Loads a page once without and once with the recorder, each in a browser of its own.
 * @param {MeasuredPage} page
 * @returns {Promise<Profiled>}
 */
async function profilePage({ name, page, words }) {
  const plain = new Recorder(page, { ...parseOptions(words), isRaw: true });
  await plain.record();
  const recorder = new ProfiledRecorder(page, parseOptions(words));
  await recorder.record();
  if (!recorder.profiles) throw new Error('the page did not load');
  const groups = pageGroups(pageScript([], {}), SCRIPT_NAME);
  const { page: inPage, process: inProcess } = recorder.profiles;
  print(name, 'page', timesByGroup(inPage, groups), hottest(inPage, ({ url }) => url === SCRIPT_NAME, MOST_FUNCTIONS));
  print(name, 'process', timesByGroup(inProcess, processGroups), hottest(inProcess, ({ url }) => !!url, MOST_FUNCTIONS));
  return {
    name, plain: plain.loadTime || 0, recorded: recorder.loadTime || 0, page: timesByGroup(inPage, groups), process: timesByGroup(inProcess, processGroups),
  };
}

/**
 * @param {string} name
 * @param {string} where
 * @param {Map<string, number>} times
 * @param {[string, number][]} functions
 */
function print(name, where, times, functions) {
  const told = (/** @type {[string, number][]} */ all) => all.filter(([, time]) => time >= LEAST_SHOWN).map(([what, time]) => `${what} ${Math.round(time)}`).join(', ');
  console.log(`${name}, ${where}: ${told([...times].sort((a, b) => b[1] - a[1]))}`);
  console.log(`  functions: ${told(functions)}`);
}

/**
 * A row for each page, a column for each group that takes time on any of them.
 * @param {Profiled[]} all
 * @param {'page'|'process'} where
 */
function tableOfTimes(all, where) {
  const groups = [...new Set(all.flatMap((one) => [...one[where].keys()]))].filter((group) => group !== 'idle').sort();
  const rows = all.map((one) => [one.name, Math.round(one.plain), Math.round(one.recorded), ...groups.map((group) => Math.round(one[where].get(group) || 0))]);
  return tableOf(['Page', 'Load without, ms', 'Load with, ms', ...groups], rows);
}

/** @param {string[]} words */
async function main(words) {
  const { pages, into } = measuredOf(words);
  /** @type {Profiled[]} */
  const all = [];
  for (const page of pages) {
    try {
      all.push(await profilePage(page));
    } catch (fault) {
      console.log(`${page.name}: left out: ${fault instanceof Error ? fault.message : fault}`);
    }
  }
  const text = `By \`recorder/test/profile.js\`, which samples every ${INTERVAL} microseconds until the page is loaded; milliseconds. A load with the profiler takes longer than one without.\n\n`
    + `In the page:\n\n${tableOfTimes(all, 'page')}\n\nIn the recorder's process:\n\n${tableOfTimes(all, 'process')}`;
  console.log(text);
  if (into) writeSection(into, 'Where the time of a load goes', text, 'The time of a load under the recorder');
}

if (require.main === module) main(process.argv.slice(2));
