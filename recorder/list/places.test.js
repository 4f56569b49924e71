'use strict';
// Addresses for other tools, and the locations of SARIF results.

const assert = require('node:assert');
const fs = require('node:fs');
const path = require('node:path');
const { test } = require('node:test');
const { Folder } = require('../browser/folder.js');
const { judgeLines } = require('../test/list-support.js');
const { Listing } = require('./listing.js');
const { uriOf } = require('./places.js');
const { Problems } = require('./problems.js');
const { sarifOf } = require('./sarif.js');

test('of addresses only those of the web and of the folder stay addresses', () => {
  const folder = new Folder('/srv/site');
  /** @param {string} address */
  const uri = (address) => uriOf(address, folder);
  assert.strictEqual(uri('https://example.org/a b.js?x=<1>'), 'https://example.org/a%20b.js?x=%3C1%3E');
  assert.strictEqual(uri('http://localhost/a%20b.js'), 'file:///srv/site/a%20b.js');
  assert.strictEqual(uri('file:///srv/site/app.js'), 'file:///srv/site/app.js');
  assert.strictEqual(uri('src/app.ts'), 'src/app.ts');
  assert.strictEqual(uri('webpack://shop/./src/a b.ts'), 'src/a%20b.ts');
});

test('a name out of a source map leads nowhere', () => {
  const folder = new Folder('/srv/site');
  for (const name of ['javascript:alert(1)', 'file:///etc/passwd', 'file:///srv/site/../other/x', 'data:text/html,<b>', '//evil.example/x', '/etc/passwd', '..\\..\\x', 'vscode://open?x', 'JAVASCRIPT:x', ' javascript:x', 'http://localhost/..%2f..%2fetc%2fpasswd', '\ud800']) {
    const uri = uriOf(name, folder);
    assert.doesNotMatch(uri, /^[a-z][a-z\d+.-]*:|^\/|(?:^|\/)\.\.(?:\/|$)|[ "<>\\^`{|}]/i, `${name} became ${uri}`);
    assert.strictEqual(new URL(uri, 'http://here/in/').host, 'here', name);
  }
});

const NAMES = { files: [], elements: {}, documents: {}, handlers: {}, timeouts: {}, intervals: {}, requests: {}, dispatches: {}, objects: {}, places: {} };

test('a result without a known place is at the page', async () => {
  const { text, report } = await judgeLines(['parse 0 1 async', 'parse 0 2 async', 'exec 1', 'w var 0 x', 'exec 2', 'w var 0 x']);
  const urisOf = (/** @type {Partial<import('./types').Names>} */ facts, page = 'dist/index.html') => {
    const listing = new Listing([new Problems(text, { ...NAMES, ...facts }, report)], null);
    return sarifOf(listing, { page, folder: null }).runs[0].results.map(({ locations }) => locations[0].physicalLocation.artifactLocation.uri);
  };
  assert.deepStrictEqual(urisOf({ documents: { 0: { address: 'http://localhost:8080/shop.html#top' } } }), ['http://localhost:8080/shop.html']);
  assert.deepStrictEqual(urisOf({}), ['dist/index.html']);
});

test('the tool has its version', () => {
  const version = fs.readFileSync(path.join(__dirname, '..', '..', 'VERSION'), 'utf8').trim();
  assert.strictEqual(sarifOf(new Listing([], null), { page: 'x', folder: null }).runs[0].tool.driver.version, version);
});
