#!/usr/bin/env node
'use strict';
// What er_browser costs a suite, and whether a test fails because of it: runs drivers/small_suite.py (twenty tests over the shop and two packaged applications)
// alternately with the browser alone and with er_browser. recorder/test/suite-cost.js [RUNS] (20 of each) writes its part of docs/measured/suite.md. It needs
// python3-selenium, chromium-driver, dokuwiki, fossil and php-xml.

const fs = require('node:fs');
const os = require('node:os');
const path = require('node:path');
const { waitForWriters, tracesIn } = require('../driven/trace-folder.js');
const { APPLICATIONS } = require('./applications/list.js');
const { Place } = require('./applications/place.js');
const { run, temporaryFolder } = require('./cleanup.js');
const { serveSuite } = require('./suite-server.js');
const { writePart } = require('./suite-tables.js');

/** @typedef {{seconds: number, tests: number, failed: string[], loads: number, output: string}} Ran */

const TOP = path.join(__dirname, '..', '..');
const SUITE = path.join(__dirname, 'drivers', 'small_suite.py');
const CHROMIUM = process.env.CHROMIUM || '/usr/bin/chromium';
const NAMES = ['dokuwiki', 'fossil'];
const LONGEST = 600000;
const folder = temporaryFolder('suite-cost');

/** @param {number[]} list */
const median = (list) => [...list].sort((a, b) => a - b)[Math.floor(list.length / 2)];
/** @param {number[]} list */
const span = (list) => `${median(list).toFixed(2)} (${Math.min(...list).toFixed(2)} to ${Math.max(...list).toFixed(2)})`;

/**
 * One run of the suite. Its time is that which its tests see, from the start of the first browser to the end of the last one.
 * @param {string} browser
 * @param {string[]} addresses
 * @param {string|null} traces
 * @returns {Promise<Ran>}
 */
async function runSuite(browser, addresses, traces) {
  const env = { ...process.env, ...traces ? { ER_TRACES: traces } : {} };
  const { stderr } = await run('/usr/bin/python3', [SUITE, browser, ...addresses], { env, longest: LONGEST });
  const [, tests, seconds] = /^Ran (\d+) tests? in ([\d.]+)s$/m.exec(stderr) || [];
  if (tests === undefined) throw new Error(`the suite did not run: ${stderr.slice(-1000)}`);
  if (traces) await waitForWriters(traces);
  const failed = [...stderr.matchAll(/^(?:FAIL|ERROR): (\w+) \(\w+\.(\w+)/gm)].map(([, name, group]) => `${group}.${name}`);
  return { seconds: Number(seconds), tests: Number(tests), failed, loads: traces ? tracesIn(traces).length : 0, output: stderr };
}

/** @param {string[]} addresses @param {number} k */
async function runBoth(addresses, k) {
  const traces = path.join(folder, String(k));
  const plain = () => runSuite(CHROMIUM, addresses, null);
  const recorded = () => runSuite(path.join(TOP, 'er_browser'), addresses, traces);
  const first = await (k % 2 ? recorded() : plain());
  const second = await (k % 2 ? plain() : recorded());
  fs.rmSync(traces, { recursive: true, force: true });
  const [without, within] = k % 2 ? [second, first] : [first, second];
  console.error(`${k + 1}: ${without.seconds} s without, ${within.seconds} s with; ${within.loads} loads; failed: ${without.failed.join(' ') || 'none'}; ${within.failed.join(' ') || 'none'}`);
  [...without.failed.length ? [without.output] : [], ...within.failed.length ? [within.output] : []].forEach((text) => console.error(text));
  return { without, within };
}

/** @param {string} name @param {Ran[]} all */
function row(name, all) {
  const tests = all.reduce((sum, one) => sum + one.tests, 0);
  const failed = all.flatMap((one) => one.failed);
  const names = [...new Set(failed)].map((one) => `${one} ${failed.filter((other) => other === one).length}`);
  return `| ${name} | ${all.length} | ${tests} | ${failed.length}${names.length ? ` (${names.join(', ')})` : ''} | ${span(all.map(({ seconds }) => seconds))} |`;
}

/** @param {{without: Ran, within: Ran}[]} pairs */
function write(pairs) {
  const ratios = pairs.map(({ without, within }) => within.seconds / without.seconds);
  const loads = pairs.map(({ within }) => within.loads);
  writePart('A suite with and without the recorder', `By \`recorder/test/suite-cost.js\`, on ${os.cpus().length} processors with a load of ${os.loadavg()[2].toFixed(1)}.

Twenty small tests with Selenium and three browsers, over the shop of examples/, dokuwiki and fossil (\`drivers/small_suite.py\`), alternately without and with \`er_browser\`, which recorded ${[...new Set([Math.min(...loads), Math.max(...loads)])].join(' to ')} page loads in each run. With it, a run took ${span(ratios)} times as long (median, least and most).

| Browser | Runs | Tests | Failed | Seconds a run |
|---|---|---|---|---|
${row('Chromium alone', pairs.map(({ without }) => without))}
${row('`er_browser`', pairs.map(({ within }) => within))}
`);
}

/** @param {number} runs */
async function main(runs) {
  const shop = await serveSuite();
  const places = NAMES.map((name) => new Place(name));
  try {
    const started = await Promise.all(NAMES.map((name, k) => APPLICATIONS[name].start(places[k])));
    const addresses = [shop.origin, ...started.map(({ page }) => new URL(page).origin)];
    const pairs = [];
    for (let k = 0; k < runs; k++) {
      pairs.push(await runBoth(addresses, k));
      write(pairs); // what came so far stays
    }
  } finally {
    shop.close();
    for (const place of places) await place.end();
  }
}

main(Number(process.argv[2] || 20)).catch((fault) => {
  console.error(fault);
  process.exitCode = 1;
});
