#!/usr/bin/env node
'use strict';
// packaged-replay.js [--most N] FOLDER [PACKAGE..]: runs the races of the pages of Debian packages (packaged.json; those that are installed) again in the
// other order. Prints each verdict, and at the end a table of the pages.

const fs = require('node:fs');
const path = require('node:path');
const { run } = require('./cleanup.js');
const { readPackaged, isInstalled } = require('./packaged-pages.js');

/**
 * @typedef {{race: number, verdict: string, effect?: string, why: string, isListed?: boolean, differences: unknown[], unsteady: {isSeen?: boolean}[],
 *   byDelay: {isSeen?: boolean}[], words: string}} Replayed as OUT.replay.json has it
 * @typedef {{races: Replayed[], nothing?: undefined}|{races?: undefined, nothing: string}} Found
 */

const TOP = path.join(__dirname, '..', '..');
const LONGEST_RUN = 1800000;
const HEAD = '| Package | Tried | Turned | Listed by the program in the other order | Differ | By the delay or by itself alone | Not turned, and why | Time |';

/**
 * What er_page wrote of a page's replays, or why there is nothing.
 * @param {string} own
 * @param {{status: number|null, stdout: string, stderr: string}} ended
 * @returns {Found}
 */
function readReplays(own, { status, stdout, stderr }) {
  const [races] = fs.readdirSync(own).filter((one) => one.endsWith('.races'));
  const file = races && path.join(own, races, 'page.replay.json');
  if (file && fs.existsSync(file)) return { races: JSON.parse(fs.readFileSync(file, 'utf8')).races };
  return { nothing: /^No race/m.test(stdout) ? 'no race in this recording' : `status ${status}: ${stderr.trim().split('\n').pop()}` };
}

/**
 * @param {string} name
 * @param {Found} found
 * @param {number} seconds
 */
function rowOf(name, { races, nothing }, seconds) {
  if (!races) return `| ${name} | 0 | | | | | ${nothing} | ${seconds} s |`;
  const turned = races.filter(({ verdict }) => verdict === 'turned');
  const differ = turned.filter(({ differences }) => differences.length).length;
  const isSeen = (/** @type {{isSeen?: boolean}[]} */ list) => list.some((one) => one.isSeen);
  const apart = turned.filter(({ differences, unsteady, byDelay }) => !differences.length && (isSeen(unsteady) || isSeen(byDelay))).length;
  const whys = races.filter(({ verdict }) => verdict !== 'turned').map(({ why }) => why.replace(/\|/g, '/'));
  return `| ${name} | ${races.length} | ${turned.length} | ${turned.filter(({ isListed }) => isListed).length} | ${differ} | ${apart} | ${whys.length ? `${whys.length}: ${[...new Set(whys)].join('; ')}` : '0'} | ${seconds} s |`;
}

/**
 * Runs the races of one page again; answers its row of the table.
 * @param {import('./packaged-pages.js').PackagedPage} page
 * @param {number} most
 * @param {string} folder
 */
async function replay({ package: name, page, root = '/usr/share', words }, most, folder) {
  const own = path.join(folder, name);
  fs.rmSync(own, { recursive: true, force: true });
  fs.mkdirSync(own, { recursive: true });
  const begin = Date.now();
  const ended = await run(path.join(TOP, 'er_page'), [page, '--root', root, ...words, '--replay', '--most', String(most)], { cwd: own, longest: LONGEST_RUN });
  fs.writeFileSync(path.join(own, 'said'), ended.stdout + ended.stderr);
  const found = readReplays(own, ended);
  const row = rowOf(name, found, Math.round((Date.now() - begin) / 1000));
  console.log(row);
  (found.races || []).forEach((race) => console.log(`  ${race.race}: ${race.effect ? `${race.effect}: ` : ''}${race.words.slice(0, 400)}`));
  return row;
}

/** @param {string[]} words */
async function main(words) {
  const most = words[0] === '--most' ? Number(words.splice(0, 2)[1]) : 20;
  const [folder = '.', ...only] = words;
  const rows = [];
  for (const one of readPackaged(only)) {
    if (isInstalled(one)) rows.push(await replay(one, most, path.resolve(folder)));
    else console.log(`${one.package}: not installed`);
  }
  console.log([HEAD, '|---|---|---|---|---|---|---|---|', ...rows].join('\n'));
}

main(process.argv.slice(2));
