'use strict';

const assert = require('node:assert');
const { test } = require('node:test');
const { fileNames } = require('./file-names.js');

/** @param {string[]} addresses */
const names = (...addresses) => fileNames(addresses.map((address) => ({ address })));

test('a file is named by the end of its address', () => {
  assert.deepStrictEqual(names('http://a/js/app.js?v=3', 'http://a/page.html#top', 'http://a/src/index.ts', 'http://a/'), ['app.js', 'page.html', 'src/index.ts', 'http://a/']);
});

test('files with one name are told apart by their queries or folders', () => {
  const load = 'http://a/load.php?lang=en&modules=';
  assert.deepStrictEqual(names(`${load}startup&only=scripts`, `${load}jquery%2Cui`, 'http://a/page.html'), ['load.php?modules=startup', 'load.php?modules=jquery%2Cui', 'page.html']);
  assert.deepStrictEqual(names('http://a/one/app.js', 'http://a/two/app.js?x=1'), ['one/app.js', 'two/app.js']);
  assert.deepStrictEqual(names('http://a/lib/x/app.js', 'http://b/lib/x/app.js'), ['a/lib/x/app.js', 'b/lib/x/app.js']);
  assert.match(names(`${load}${'a'.repeat(100)}`, `${load}b`)[0], /^load\.php\?modules=a{32}…$/);
});

test('one address twice keeps its name', () => {
  assert.deepStrictEqual(names('http://a/app.js', 'http://a/app.js'), ['app.js', 'app.js']);
});
