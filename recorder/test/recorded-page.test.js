'use strict';
// The names of docs/recorded.md are names of the browser that runs: of the window, and of the interfaces that it has, also of their prototypes.

const assert = require('node:assert');
const fs = require('node:fs');
const path = require('node:path');
const { after, before, test } = require('node:test');
const { Chromium } = require('../browser/chromium.js');
const { parseOptions } = require('../recording/options.js');
const { Recorder } = require('../recording/recorder.js');
const { temporaryFolder } = require('./cleanup.js');
const { namesOfBrowser } = require('./recorded-names.js');

/** Names that only newer releases of Chromium have. */
const NEWER = new Set(['getAllRecords', 'setHTML']);

/** @type {Chromium} */
let browser;
before(async () => { browser = await Chromium.launch({ width: 1100, height: 800 }); });
after(() => browser.close());

const WALK = `
const names = new Set();
for (let one = window; one; one = Object.getPrototypeOf(one)) Object.getOwnPropertyNames(one).forEach((name) => names.add(name));
for (const name of [...names]) {
  const owner = Object.getOwnPropertyDescriptor(window, name)?.value;
  if ((typeof owner !== 'function' && typeof owner !== 'object') || owner === null) continue;
  for (const each of [owner, owner.prototype]) if (each) Object.getOwnPropertyNames(each).forEach((own) => names.add(own));
}
console.error('missing: ' + DUE.filter((name) => !names.has(name)).join(' '));
`;

test('each name is one of an interface', { timeout: 150000 }, async () => {
  const file = path.join(temporaryFolder('recorded-page'), 'names.html');
  fs.writeFileSync(file, `<!doctype html>\n<title>names</title>\n<script>\nconst DUE = ${JSON.stringify(namesOfBrowser())};\n${WALK}</script>\n`);
  const recorder = new Recorder(file, { ...parseOptions([file]), browser });
  await recorder.record();
  assert.deepStrictEqual(recorder.errors, []);
  const [said] = recorder.consoleErrors.filter((text) => text.includes('missing: '));
  const missing = said.slice(said.indexOf('missing: ') + 'missing: '.length).split(' ').filter((name) => name && !NEWER.has(name));
  assert.deepStrictEqual(missing, []);
});
