#!/usr/bin/env node
'use strict';
// packaged.js [--times N] [--server] [--depth DEPTH] [FOLDER] [PACKAGE..]: records pages of Debian packages (packaged.json; those that are installed),
// each also without the recorder, and prints whether the trace is accepted, whether the page throws the same, and how long the load took:
// the median of N recordings with and without the recorder, alternately. With --server the pages come from a web server of its own.

const fs = require('node:fs');
const path = require('node:path');
const { PROGRAM } = require('../races/program.js');
const { resolveAddress } = require('../browser/folder.js');
const { run } = require('./cleanup.js');
const { readPackaged, isInstalled } = require('./packaged-pages.js');
const { serveFolder } = require('./server.js');

/** @typedef {ReturnType<typeof optionsOf>} Options */

const TOP = path.join(__dirname, '..', '..');
const LOAD_LINE = /load of the page: ([\d.]+) s/;
const LONGEST_RUN = 120000;
/** Of the whole machine no more is served than this. */
const DOCUMENTATION = '/usr/share/';

/**
 * @param {string} page
 * @param {string} file
 * @param {string[]} words
 */
async function record(page, file, words) {
  const { stderr, status } = await run(path.join(TOP, 'er_record'), [page, file, ...words], { longest: LONGEST_RUN });
  const errors = stderr.split('\n').filter((line) => line.startsWith('  error: ')).sort();
  return { status, errors, load: Number(LOAD_LINE.exec(stderr)?.[1]), said: stderr };
}

/** @param {string} file */
async function judge(file) {
  const { stdout } = await run('/bin/sh', ['-c', `${PROGRAM} < '${file}'`], { longest: LONGEST_RUN });
  fs.writeFileSync(file.replace(/trace$/, 'report'), stdout);
  const count = (/** @type {string} */ name) => new RegExp(`^${name} (\\d+)$`, 'm').exec(stdout)?.[1];
  return stdout.startsWith('report') ? `${count('actions')} actions, ${count('races')} races, ${count('groups')} groups` : stdout.trim();
}

/** @param {number[]} numbers */
const median = (numbers) => [...numbers].sort((a, b) => a - b)[Math.floor(numbers.length / 2)];

/**
 * Records a page N times with and without the recorder, alternately.
 * @param {string} address
 * @param {string} file
 * @param {string[]} words
 * @param {Options} options
 */
async function recordBoth(address, file, words, { times, depth }) {
  const runs = [];
  for (let k = 0; k < times; k++) {
    runs.push({ plain: await record(address, file, [...words, '--raw']), recorded: await record(address, file, [...words, '--depth', depth]) });
  }
  const [{ plain, recorded }] = runs;
  fs.writeFileSync(file.replace(/trace$/, 'log'), recorded.said);
  const without = median(runs.map((one) => one.plain.load));
  const withIt = median(runs.map((one) => one.recorded.load));
  return { plain, recorded, loads: `load ${without.toFixed(2)} s without, ${withIt.toFixed(2)} s with: ${(withIt / without).toFixed(1)} times` };
}

/**
 * @param {import('./packaged-pages.js').PackagedPage} page
 * @param {Options} options
 */
async function recordPage({ package: name, page, root = '/usr/share', words }, options) {
  const { folder, isServed } = options;
  const file = path.join(folder, `${name}.trace`);
  const server = isServed ? await serveFolder(root, root === '/' ? DOCUMENTATION : '/') : null;
  const address = server ? server.addressOf(resolveAddress(page, root).address) : page;
  const { plain, recorded, loads } = await recordBoth(address, file, server ? words : ['--root', root, ...words], options);
  server?.close();
  const isSame = JSON.stringify(plain.errors) === JSON.stringify(recorded.errors);
  const errors = isSame ? 'the same errors' : `errors ${JSON.stringify(plain.errors)} and ${JSON.stringify(recorded.errors)}`;
  console.log(`${name}: ${await judge(file)}; status ${recorded.status}, ${errors} (${recorded.errors.length}); ${loads}`);
}

/** @param {string[]} words */
function optionsOf(words) {
  const left = [...words];
  const options = { times: 1, isServed: false, depth: 'objects' };
  for (;;) {
    if (left[0] === '--times') options.times = Number(left.splice(0, 2)[1]);
    else if (left[0] === '--depth') options.depth = left.splice(0, 2)[1];
    else if (left[0] === '--server') options.isServed = !!left.shift();
    else return { ...options, folder: left[0] || '.', only: left.slice(1) };
  }
}

/** @param {string[]} words */
async function main(words) {
  const options = optionsOf(words);
  for (const one of readPackaged(options.only)) {
    if (isInstalled(one)) await recordPage(one, options);
    else console.log(`${one.package}: not installed`);
  }
}

main(process.argv.slice(2));
