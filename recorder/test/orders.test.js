'use strict';
// Orders in a real browser: what --chaos may not change, the recorder's actions beside Chromium's own timeline, and the rules beside the orders that come.

const assert = require('node:assert');
const path = require('node:path');
const { test, before, after } = require('node:test');
const { Chromium } = require('../browser/chromium.js');
const { parseOptions } = require('../recording/options.js');
const { Recorder } = require('../recording/recorder.js');
const { temporaryFolder } = require('./cleanup.js');
const { pageOf } = require('./measured-pages.js');
const { compareOrders } = require('./orders.js');
const { compareTimeline } = require('./timeline.js');

const LIMIT = { timeout: 90000 };
const folder = temporaryFolder('orders-test');

/** @type {Chromium} */
let browser;
before(async () => { browser = await Chromium.launch({ width: 1100, height: 800 }); });
after(() => browser.close());

test('--chaos: what the standard orders stays in order, and a page does not notice', LIMIT, async () => {
  for (const chaos of [1, 2, 3]) {
    const recorder = new Recorder(path.join(__dirname, 'pages', 'chaos.html'), { ...parseOptions(['--keep']), browser, chaos });
    await recorder.record();
    assert.deepStrictEqual(recorder.errors, [], `seed ${chaos}`);
    assert.ok(recorder.intake.actions > 80, `seed ${chaos}: ${recorder.intake.actions} actions`);
  }
});

for (const page of ['timer.html', 'messages.html', 'module.html', 'declared-twice.html']) {
  test(`${page}: each call into script is in an action`, LIMIT, async () => {
    const { kinds, missing } = await compareTimeline(pageOf(page));
    assert.deepStrictEqual(missing, []);
    assert.ok(kinds.size > 0);
  });
}

test('the shop of the examples: a pair comes in both orders, and none that the rules order', LIMIT, async () => {
  const how = { times: 5, seed: 1, folder, words: ['--keep'] };
  const { reasons, actions, listedBoth, orderedOnce } = await compareOrders(pageOf(path.join(__dirname, '..', '..', 'examples', 'shop', 'index.html')), how);
  assert.deepStrictEqual([...reasons, ...actions.reasons].filter(({ kind }) => kind !== 'lacking').map(({ kind, text }) => `${kind}: ${text}`), []);
  assert.ok(listedBoth.length > 0 && actions.looked > 0);
  assert.ok(orderedOnce.length > 10, String(orderedOnce.length));
});

test('messages on two channels, which rule 25 orders and the standard does not: the tool finds it', LIMIT, async () => {
  const { reasons, actions } = await compareOrders(pageOf('two-channels.html'), { times: 6, seed: 1, folder, words: ['--keep'] });
  assert.deepStrictEqual(reasons.map(({ kind }) => kind), ['broken']);
  for (const { kind, text } of [...reasons, ...actions.reasons]) if (kind === 'broken') assert.match(text, /^by rule 25 from the message posted at two-channels\.html:10/);
});
