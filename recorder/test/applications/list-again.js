'use strict';
// Makes the lists of recordings again, by the code of this checkout: so a change of the list is measured on recordings that are there.

const fs = require('node:fs');
const path = require('node:path');
const { run: call } = require('../cleanup.js');
const { bugsIn } = require('./confirmed.js');
const { listOf, problemsOf } = require('./lists.js');

/** @typedef {import('./types').DoneLine} DoneLine */

const SUITE = path.join(__dirname, '..', '..', '..', 'er_suite');
const LONGEST = 900000;

/**
 * The list of one recording; null if its folder has none.
 * @param {string} folder
 */
async function listIn(folder) {
  const [races] = fs.existsSync(folder) ? fs.readdirSync(folder).filter((one) => one.endsWith('.races')) : [];
  if (!races) return null;
  const { stdout } = await call(SUITE, [path.join(folder, races), '--json'], { longest: LONGEST });
  return listOf(folder, stdout);
}

/**
 * The line of an application with new lists. A recording without a list keeps what the line says.
 * @param {DoneLine} line
 * @param {string} folder of all applications
 * @returns {Promise<DoneLine>}
 */
async function listAgain(line, folder) {
  /** @type {(import('./lists.js').List|null)[]} */
  const lists = [];
  for (const k of line.runs.keys()) lists.push(await listIn(path.join(folder, line.application, String(k + 1))));
  const runs = line.runs.map((run, k) => {
    const figures = lists[k]?.figures || run.figures;
    return { ...run, ...figures ? { figures } : {} };
  });
  return { ...line, runs, problems: problemsOf(lists, null), bugs: bugsIn(line.application, lists) };
}

module.exports = { listAgain };
