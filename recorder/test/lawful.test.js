'use strict';
// Whether a run in the other order took the same way, by the analyzer. No browser.

const assert = require('node:assert');
const fs = require('node:fs');
const path = require('node:path');
const { test } = require('node:test');
const { checkOrder, otherWayInWords } = require('../replay/found/lawful.js');
const { temporaryFolder } = require('./cleanup.js');
const { keysOf } = require('./keys-support.js');

test('a run in the other order that took another way is told', async () => {
  const folder = temporaryFolder('lawful-test');
  const lines = ['parse 0 2 inline', 'exec 2', 'set 1 5', 'set 2 0', 'timer 1', 'w var 0 x', 'timer 2', 'w var 0 x'];
  /** @type {import('../races/types').NamesOfTrace['places']} */
  const places = { 4: [0, 2, 3], 5: [0, 2, 9], 7: [0, 1, 1], 9: [0, 1, 1] };
  const traceFile = path.join(folder, 'recorded.trace');
  const write = (/** @type {string} */ to, /** @type {string[]} */ some) => fs.writeFileSync(to, ['webtrace 3', ...some, 'end', ''].join('\n'));
  write(traceFile, lines);
  const recorded = { traceFile, keys: keysOf(lines, places), race: { actions: [2, 3] }, number: 1 };
  const turned = [...lines.slice(0, 4), ...lines.slice(6), ...lines.slice(4, 6)];
  const file = path.join(folder, 'turned.trace');
  write(file, turned);
  const kept = await checkOrder(recorded, { file, keys: keysOf(turned, places), pair: [2, 3] });
  assert.deepStrictEqual([kept?.needed, kept?.asked, kept?.missing, kept?.behind, kept?.unordered], [2, 2, [], [], []]);
  assert.strictEqual(otherWayInWords(kept), '');
  const other = turned.slice(1);
  write(file, other);
  const broken = await checkOrder(recorded, { file, keys: keysOf(['parse 0 9 plain', ...other], {}), pair: [2, 3] });
  assert.match(otherWayInWords(broken), /^the page took another way before the two: .* did not come/);
});
