'use strict';

const assert = require('node:assert');
const { createHash } = require('node:crypto');
const { test } = require('node:test');
const { withoutDigest } = require('./build-digest.js');

test('digests of builds: Vite and Rollup, esbuild and Angular, webpack, Parcel', () => {
  const due = [
    ['/assets/index-BxK3a_9Q.js', '/assets/index-*.js'], ['/assets/index-Cq-7_bZk.js', '/assets/index-*.js'], ['/assets/vendor-DKaRqTzB.css', '/assets/vendor-*.css'],
    ['/main-PLXRPBPE.js', '/main-*.js'], ['/chunk-7KQ2M4XA.js.map', '/chunk-*.js.map'], ['/main.PLXRPBPE.js', '/main.*.js'],
    ['/static/main.3f2a9c1b.chunk.js', '/static/main.*.chunk.js'], ['/app.0123456789abcdef0123.js', '/app.*.js'], ['/entry.BxK3a_9Q.js', '/entry.*.js'],
  ];
  assert.deepStrictEqual(due.map(([address]) => withoutDigest(address)), due.map(([, short]) => short));
});

test('names of files that only look alike stay', () => {
  const names = ['index-settings.js', 'jquery-3.5.1.js', 'jquery-3.5.1.min.js', 'app-download.js', 'chunk-VENDORS1.js', 'app-MyWidget.js', 'app-Settings.js', 'app-DataGrid.js', 'x-version2.js',
    'x-utils_v2.js', 'x-foo-bar1.js', 'x-Version2.js', 'x-polyfill.js', 'x-font-face.js', 'TeX-AMS_HTML.js', 'ch-02-match.html', 'settings.js', 'BxK3a_9Q.js', 'index-BxK3a_9QQ.js', 'index-BxK3a9Q.js'];
  const addresses = [...names.map((name) => `/js/${name}`), 'http://my-BxK3a_9Q.example.org/app.js', '/lib-BxK3a_9Q.d/app.js', ''];
  assert.deepStrictEqual(addresses.map(withoutDigest), addresses);
});

test('of a thousand digests of base64url and base32 nearly all are found', () => {
  const base32 = (/** @type {Buffer} */ bytes) => [...bytes].slice(0, 8).map((byte) => 'ABCDEFGHIJKLMNOPQRSTUVWXYZ234567'[byte % 32]).join('');
  const digests = Array.from({ length: 1000 }, (_, k) => createHash('sha256').update(`${k}`).digest());
  const left = (/** @type {string[]} */ texts) => texts.filter((text) => withoutDigest(`/a-${text}.js`) !== '/a-*.js').length;
  assert.ok(left(digests.map((bytes) => bytes.toString('base64url').slice(0, 8))) <= 25);
  assert.strictEqual(left(digests.map(base32)), 0);
});
