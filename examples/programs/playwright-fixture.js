// Not run by this project's tests, since no package of Debian has Playwright: a browser whose page loads are recorded, and a worker that fails on a new race.
'use strict';
const fs = require('node:fs');
const os = require('node:os');
const path = require('node:path');
const { test: base, chromium } = require('@playwright/test');
const { list } = require('eventracer');

/** A worker that loaded no page has no trace. */
const ifNone = (fault) => {
  if (fault.code !== 'NO_PAGE') throw fault;
  return { problems: [] };
};

exports.test = base.extend({
  browser: [async ({}, use) => {
    const folder = fs.mkdtempSync(path.join(os.tmpdir(), 'traces-'));
    const browser = await chromium.launch({ executablePath: '/usr/bin/er_browser', env: { ...process.env, ER_TRACES: folder } });
    await use(browser);
    await browser.close();
    const { problems } = await list([folder], { known: 'races.known' }).catch(ifNone); // it waits for the recorder
    const fresh = problems.filter(({ fails }) => fails);
    if (fresh.length) throw new Error(fresh.map(({ name, words }) => `${name} ${words}`).join('\n'));
  }, { scope: 'worker' }],
});
