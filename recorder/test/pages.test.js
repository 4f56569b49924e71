'use strict';
// Small pages of one thing each, in a real browser: the records that are due, in order, and the races by name. And of each the rules that leave
// accesses out are tested against the whole recording: no race of it is missing that they don't explain.

const assert = require('node:assert');
const { after, before, test } = require('node:test');
const { Chromium } = require('../browser/chromium.js');
const { Comparison } = require('./rules.js');
const { recordPage, judge, reportOf, actorsOf, firstMissing } = require('./support.js');

const { cases } = require('./cases.js');

/** @type {Chromium} */
let browser;
before(async () => { browser = await Chromium.launch({ width: 1100, height: 800 }); });
after(async () => { await browser.close(); });

for (const one of cases) {
  const name = one.version ? `${one.page} in version ${one.version}` : one.page;
  test(name, { timeout: 150000 }, async () => {
    const trace = await recordPage(browser, one.page, one.words, one.version);
    for (const due of [one.due || [], ...(one.besides || [])]) {
      const missing = firstMissing(trace.readable, due);
      assert.strictEqual(missing, null, `missing or out of its order: ${missing}\n${trace.readable.join('\n')}`);
    }
    for (const record of one.never || []) assert.ok(!trace.left.includes(record), `not due: ${record}\n${trace.left.join('\n')}`);
    const { refused, races } = judge(trace);
    assert.strictEqual(refused, '', `${refused}\n${trace.text.split('\n').map((line, k) => `${k + 1} ${line}`).join('\n')}`);
    assert.deepStrictEqual([...new Set(races)].sort(), [...(one.races || [])].sort(), `${trace.text.split('\n').map((line, k) => `${k + 1} ${line}`).join('\n')}`);
    for (const { actors: [first, second], isNumbered, isOneCode } of actorsOf(trace)) {
      assert.notStrictEqual(first, second);
      assert.ok(!isNumbered || isOneCode, `told apart by numbers, and not one code: ${first}; ${second}`);
    }
    const { unexplained, foreign } = new Comparison({ ...trace.whole, report: reportOf(trace.whole) }, { report: reportOf(trace) });
    assert.deepStrictEqual({ unexplained, foreign }, { unexplained: [], foreign: [] }, trace.readable.join('\n'));
    for (const loss of one.losses || []) assert.ok(trace.losses.some((line) => loss.test(line)), trace.losses.join('\n'));
    if (!one.throws) assert.deepStrictEqual(trace.errors, []);
  });
}
