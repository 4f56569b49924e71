#!/usr/bin/env node
'use strict';
// confirm.js [NAME..]: bugs of the applications, in a browser without the recorder: what a user sees in the usual order, and in the other one. The bugs
// are the modules of confirm/. Ends with 1 if one is not confirmed.

const { withoutCommands } = require('../../common/shown.js');
const { PlainPage } = require('./confirm/plain-page.js');
const { bugNames, bugOf } = require('./confirmed.js');
const { APPLICATIONS } = require('./list.js');
const { Place } = require('./place.js');

/**
 * What a user sees in one of the orders, in an application that is new.
 * @param {import('./types').Confirmed} bug
 * @param {boolean} isOther
 */
async function seenIn(bug, isOther) {
  const place = new Place(bug.application);
  try {
    const page = await PlainPage.open(await APPLICATIONS[bug.application].start(place));
    try {
      return await bug.run(page, isOther);
    } finally {
      await page.close();
    }
  } finally {
    await place.end();
  }
}

/** @param {string} name */
async function confirm(name) {
  const bug = bugOf(name);
  const usual = await seenIn(bug, false);
  const other = await seenIn(bug, true);
  const isConfirmed = bug.isHarmed(other) && !bug.isHarmed(usual);
  const verdict = isConfirmed ? 'confirmed' : 'not confirmed';
  console.log(withoutCommands(`${name}: ${verdict}: usual order ${JSON.stringify(usual)}; other order ${JSON.stringify(other)}`));
  if (isConfirmed) console.log(`  ${bug.loses}`);
  return isConfirmed;
}

/** @param {string[]} names */
async function main(names) {
  let isAll = true;
  for (const name of names.length ? names : bugNames()) isAll = await confirm(name) && isAll;
  process.exitCode = isAll ? 0 : 1;
}

main(process.argv.slice(2));
