#!/usr/bin/env node
'use strict';
// loops.js [TIMES]: what marks cost in code that does nothing but touch something: loops in a page, the fastest of TIMES runs with and without
// the recorder, alternately.

const fs = require('node:fs');
const path = require('node:path');
const { Chromium } = require('../browser/chromium.js');
const { sleep } = require('../common/time.js');
const { parseOptions } = require('../recording/options.js');
const { Recorder } = require('../recording/recorder.js');
const { temporaryFolder } = require('./cleanup.js');

/**
 * Each runs N times; an expensive loop runs a tenth or a hundredth as often.
 * @type {{[name: string]: [part: number, body: string]}}
 */
const LOOPS = {
  'reads of one object': [1, 'const o = { n: 1 }; let sum = 0; for (let k = 0; k < N; k++) sum += o.n; return sum;'],
  'writes of one object': [1, 'const o = { n: 1 }; for (let k = 0; k < N; k++) o.n = k; return o.n;'],
  'items of an array': [1, 'const list = [1, 2, 3, 4]; let sum = 0; for (let k = 0; k < N; k++) sum += list[k & 3]; return sum;'],
  'bytes': [1, 'const bytes = new Uint8Array(4096); for (let k = 0; k < N; k++) bytes[k & 4095] = k; return bytes[7];'],
  'writes of a closure': [1, 'let n = 0; const count = () => n; for (let k = 0; k < N; k++) n = k; return count();'],
  'calls of a method': [10, 'const o = { n: 1, get2() { return this.n; } }; let sum = 0; for (let k = 0; k < N; k++) sum += o.get2(); return sum;'],
  'get and set of a map': [10, 'const m = new Map([["a", 1]]); for (let k = 0; k < N; k++) m.set("a", m.get("a") + 1); return m.get("a");'],
  'names of texts': [10, 'const texts = ["a", "bb", "ccc", "d"]; let sum = 0; for (let k = 0; k < N; k++) sum += texts[k & 3].length; return sum;'],
  'properties of elements': [100, 'const both = [document.body, document.documentElement]; let sum = 0; for (let k = 0; k < N; k++) sum += both[k & 1].nodeType; return sum;'],
  'fresh objects': [100, 'let sum = 0; for (let k = 0; k < N; k++) { const o = { n: k }; sum += o.n; } return sum;'],
  'global variable': [10, 'for (let k = 0; k < N; k++) counted = counted + 1; return counted;'],
};
const MOST = 1e8;
const POLL = 100;

function pageOf() {
  const bodies = Object.entries(LOOPS).map(([name, [part, body]]) => `loops[${JSON.stringify(name)}] = [${MOST / part}, function (N) { ${body} }];`);
  return `<!doctype html>
<title>loops</title>
<pre id="out"></pre>
<script>
var counted = 0;
var loops = {};
${bodies.join('\n')}
const left = Object.keys(loops);
function next() {
  const name = left.shift();
  const [count, run] = loops[name];
  run(1000);
  const begin = performance.now();
  run(count);
  console.error('time ' + name + ': ' + (performance.now() - begin));
  if (left.length) setTimeout(next, 20);
}
addEventListener('load', () => setTimeout(next, 100));
</script>
`;
}

/** Waits for the loops, and for nothing else. */
class Waiting extends Recorder {
  times() {
    const found = this.consoleErrors.map((line) => /^time (.*): ([\d.]+)$/.exec(line));
    return new Map(found.flatMap((one) => (one ? [/** @type {const} */ ([one[1], Number(one[2])])] : [])));
  }

  async useAndWait() {
    while (this.times().size < Object.keys(LOOPS).length && Date.now() < this.until) await sleep(POLL);
    return true;
  }
}

/**
 * @param {Chromium} browser
 * @param {string} page
 * @param {string[]} words
 */
async function timesOf(browser, page, words) {
  const recorder = new Waiting(page, { ...parseOptions([...words, '--time', '120', page]), browser });
  await recorder.record();
  return recorder.times();
}

/** @param {string[]} words */
async function main([times = '3']) {
  const page = path.join(temporaryFolder('loops'), 'loops.html');
  fs.writeFileSync(page, pageOf());
  const browser = await Chromium.launch({ width: 1100, height: 800 });
  /** @type {{[kind: string]: {[name: string]: number}}} */
  const least = { raw: {}, recorded: {} };
  try {
    for (let k = 0; k < Number(times); k++) {
      for (const [kind, words] of /** @type {[string, string[]][]} */ ([['raw', ['--raw']], ['recorded', []]])) {
        for (const [name, time] of await timesOf(browser, page, words)) least[kind][name] = Math.min(time, least[kind][name] ?? Infinity);
      }
    }
  } finally {
    await browser.close();
  }
  for (const [name, [part]] of Object.entries(LOOPS)) {
    const [raw, recorded] = [least.raw[name], least.recorded[name]];
    console.log(`${name}: ${MOST / part} times, ${(raw / 1000).toFixed(2)} s without, ${(recorded / 1000).toFixed(2)} s with: ${(recorded / raw).toFixed(1)} times`);
  }
}

main(process.argv.slice(2));
