#!/usr/bin/env node
'use strict';
// big-lists.js [--races N] [--times N] [--into FILE] [SHAPE..]: what the list and the view of generated traces of N races (250,000) cost (big-traces.js): processor time,
// with that of the analyzer apart, the page's bytes, and how long Chromium takes to open it. --into writes the table.

const { spawnSync } = require('node:child_process');
const fs = require('node:fs');
const os = require('node:os');
const path = require('node:path');
const { pathToFileURL } = require('node:url');
const { Chromium } = require('../browser/chromium.js');
const { Tab } = require('../browser/tab.js');
const { judgeAndView } = require('../judged.js');
const { Listing } = require('../list/listing.js');
const { linesOf } = require('../list/outputs.js');
const { SHAPES } = require('./big-traces.js');
const { temporaryFolder } = require('./cleanup.js');
const { tableOf, writeSection } = require('./measured-pages.js');

/** @typedef {{races: number, problems: number, groups: number, lines: number, node: number, megabytes: number}} Made what the list and the view have and cost */

const RACES = 250000;
const SIZE = { width: 1100, height: 800 };
/** As recorder/start gives it. */
const HEAP = '--max-old-space-size=4096';
const MEGABYTE = 1e6;
/** Of so many times the smallest is that with the least other work. */
const TIMES = 3;

/**
 * Has a trace analyzed, listed and shown as er_page does. Called in a process of its own.
 * @param {string} file
 */
async function listAndView(file) {
  const { view } = await judgeAndView(file, 'big-lists', {});
  if (!view) throw new Error('no report');
  const { report, problems } = view;
  const lines = linesOf(new Listing([problems], null));
  const { user, system } = process.cpuUsage();
  /** @type {Made} */
  const made = { races: report.races.length, problems: problems.list.length, groups: report.groups.length, lines: lines.length, node: (user + system) / 1e6,
    megabytes: process.resourceUsage().maxRSS / 1024 };
  process.stdout.write(JSON.stringify(made));
}

/**
 * Runs this program for one trace. The processor time of all that the child started is the difference to that of the child.
 * @param {string} file
 */
function runApart(file) {
  const words = ['-f', '%U %S', process.execPath, HEAP, __filename, '--one', file];
  const { stdout, stderr, status } = spawnSync('/usr/bin/time', words, { encoding: 'utf8', maxBuffer: 1 << 28 });
  const times = /^([\d.]+) ([\d.]+)$/m.exec(stderr);
  if (status !== 0 || !times) throw new Error(`status ${status}: ${stderr}`);
  /** @type {Made} */
  const made = JSON.parse(stdout);
  return { ...made, analyzer: Number(times[1]) + Number(times[2]) - made.node };
}

/**
 * Milliseconds from the start of the navigation until the page has loaded, and its first picture has been drawn.
 * @param {Chromium} browser
 * @param {string} file
 */
async function timeToOpen(browser, file) {
  const tab = await Tab.open(browser, SIZE);
  await tab.send('Page.enable');
  const loaded = new Promise((resolve) => tab.on('Page.loadEventFired', resolve));
  await tab.send('Page.navigate', { url: pathToFileURL(file).href });
  await loaded;
  const drawn = 'new Promise((done) => requestAnimationFrame(() => setTimeout(() => done(performance.now()))))';
  const milliseconds = await tab.evaluate(drawn, true);
  const shown = await tab.evaluate("document.getElementById('groups').childElementCount");
  await tab.close();
  if (!shown) throw new Error(`${file} shows nothing`);
  return milliseconds;
}

/**
 * @param {Chromium} browser
 * @param {string} folder
 * @param {string} shape
 * @param {{races: number, times: number}} how
 */
async function measure(browser, folder, shape, { races, times }) {
  const base = path.join(folder, shape);
  const { lines, names } = SHAPES[shape].make(races);
  fs.writeFileSync(`${base}.trace`, ['webtrace 3', ...lines, 'end', ''].join('\n'));
  fs.writeFileSync(`${base}.names.json`, JSON.stringify(names));
  const made = [];
  const opened = [];
  for (let k = 0; k < times; k++) {
    made.push(runApart(`${base}.trace`));
    opened.push(await timeToOpen(browser, `${base}.html`));
  }
  const best = made.sort((a, b) => a.node - b.node)[0];
  return [shape, ...[best.races, best.groups, best.problems, best.lines].map((count) => count.toLocaleString('en')), best.node.toFixed(1), best.analyzer.toFixed(1),
    Math.round(best.megabytes), (fs.statSync(`${base}.html`).size / MEGABYTE).toFixed(2), (Math.min(...opened) / 1000).toFixed(2)];
}

const HEAD = ['Shape', 'Races', 'Groups', 'Problems', 'Lines of the list', 'Node (s)', 'Analyzer (s)', 'Memory (MB)', '`page.html` (MB)', 'Opens in (s)'];

/** @param {string[]} words */
async function main(words) {
  if (words[0] === '--one') return listAndView(words[1]);
  const left = [...words];
  const take = (/** @type {string} */ name) => (left.includes(name) ? left.splice(left.indexOf(name), 2)[1] : null);
  const [races, times, into] = [Number(take('--races') || RACES), Number(take('--times') || TIMES), take('--into')];
  const shapes = left.length ? left : Object.keys(SHAPES);
  const folder = temporaryFolder('big-lists');
  const loads = [os.loadavg()[0]];
  const browser = await Chromium.launch(SIZE);
  const rows = [];
  try {
    for (const shape of shapes) {
      rows.push(await measure(browser, folder, shape, { races, times }));
      console.log(rows[rows.length - 1].join(' | '));
    }
  } finally {
    await browser.close();
  }
  loads.push(os.loadavg()[0]);
  const note = `By \`recorder/test/big-lists.js\`, with ${os.cpus().length} processors at a load of ${loads.map((one) => one.toFixed(1)).join(' to ')}. ${times > 1 ? `Each is the best of ${times}. ` : ''}`
    + 'Node: processor time of the list and the view, without the analyzer. Opens: until Chromium has drawn the page.';
  const text = `${note}\n\n${tableOf(HEAD, rows)}\n\n${shapes.map((shape) => `- ${shape}: ${SHAPES[shape].says}`).join('\n')}`;
  if (into) writeSection(into, `Traces of ${races.toLocaleString('en')} races`, text, 'Lists and views of many races');
}

main(process.argv.slice(2));
