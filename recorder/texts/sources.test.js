'use strict';
// The texts of a page in several runs.

const assert = require('node:assert');
const { test } = require('node:test');
const { Sources } = require('./sources.js');

const PAGE = 'http://localhost/page.html';

test('each run finds places by its own copy of the page', () => {
  const html = '<p>one</p>\n<p>two</p>\n<script>var x = 1;</script>\n';
  const sources = new Sources();
  sources.builtins.set(['window']);
  /** @type {(some: Sources, insert?: string) => string} */
  const copyIn = (some, insert) => some.rewritePage(PAGE, html, () => (insert ? [{ start: 0, end: 0, insert }] : []));
  /** @type {(some: Sources, copy: string, word: string) => ReturnType<Sources['placeInCopy']>} */
  const placeOf = (some, copy, word) => {
    const before = copy.slice(0, copy.indexOf(word)).split('\n');
    return some.placeInCopy(PAGE, before.length, before[before.length - 1].length + 1);
  };
  const copy = copyIn(sources);
  const [first, second] = [sources.forRun(), sources.forRun()];
  const [held, plain] = [copyIn(first, '<script src="x">\n</script>\n'), copyIn(second)];
  assert.strictEqual(plain, copy);
  assert.deepStrictEqual(placeOf(first, held, '<p>two'), [0, 2, 1]);
  assert.deepStrictEqual(placeOf(second, plain, '<p>two'), [0, 2, 1]);
  assert.deepStrictEqual(placeOf(sources, copy, '<p>two'), [0, 2, 1]);
  assert.strictEqual(sources.files.length, 1);
  first.rewriteScript(`${PAGE}.js`, 'var y = 1;');
  assert.strictEqual(sources.files.length, 2);
  assert.ok(sources.placeInCopy(`${PAGE}.js`, 1, 1));
  assert.strictEqual(second.placeInCopy(`${PAGE}.js`, 1, 1), null);
});

test('a library in a file with other code is a file of its own, with the same places', () => {
  const address = 'http://localhost/load.php?modules=jquery';
  const made = 'function(w){C.fn=C.prototype={jquery:1};w.jQuery=C;function inside(){C.x=1}return C}';
  const code = `f.x=1;\nimplement(${made});\nf.y=2;`;
  const sources = new Sources('objects');
  sources.rewriteScript(address, code);
  const at = (/** @type {string} */ text) => sources.sites.map(({ offset }, site) => ({ offset, site })).filter(({ offset }) => code.startsWith(text, offset)).map(({ site }) => site)[0];
  const [own, inside] = [at('x=1;\n'), at('x=1}')];
  const places = [own, inside].map((site) => sources.placeOfSite(site));
  assert.deepStrictEqual(places.map(([, line]) => line), [1, 2]);
  assert.notStrictEqual(places[0][0], places[1][0]);
  assert.deepStrictEqual(places.map(([file]) => sources.files[file].address), [address, address]);
  assert.strictEqual(sources.functionAt(places[1]), 'inside');
  const isLibrary = (/** @type {RegExp|null} */ pattern) => [own, inside].map((site) => sources.isLibrary(String(site), pattern));
  assert.deepStrictEqual([isLibrary(/^jquery\.js$/), isLibrary(null), isLibrary(/^other$/)], [[false, true], [false, false], [false, false]]);
  sources.rewriteScript('http://localhost/jquery.js', code);
  assert.strictEqual(sources.files[sources.placeOfSite(sources.sites.length - 1)[0]].address, 'http://localhost/jquery.js');
});
