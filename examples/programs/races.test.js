// Run by node --test: a page must have no race that is not in the file of known races.
'use strict';
const assert = require('node:assert');
const fs = require('node:fs');
const os = require('node:os');
const path = require('node:path');
const { test } = require('node:test');
const { record, list } = require('eventracer');

const PAGE = process.env.RACES_PAGE || path.join(__dirname, '..', 'shop', 'index.html');
const KNOWN = process.env.RACES_KNOWN || null;

test('no new race', { timeout: 120000 }, async ({ signal }) => {
  const folder = fs.mkdtempSync(path.join(os.tmpdir(), 'races-'));
  try {
    const { trace } = await record(PAGE, { trace: path.join(folder, 'page.trace'), slow: 200, signal });
    const { problems } = await list([trace], { known: KNOWN, signal });
    assert.deepStrictEqual(problems.filter(({ fails }) => fails).map(({ words }) => words), []);
  } finally {
    fs.rmSync(folder, { recursive: true });
  }
});
