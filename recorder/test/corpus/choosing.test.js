'use strict';
// How the pages of the evaluation are chosen. No browser.

const assert = require('node:assert');
const fs = require('node:fs');
const path = require('node:path');
const { test } = require('node:test');
const { temporaryFolder } = require('../cleanup.js');
const { parsePackages, needsOf } = require('./packages.js');
const { KINDS, candidatesOf, kindOf, pagesOf } = require('./rule.js');
const { scriptsOf } = require('./script-sizes.js');

const DOCUMENT = path.join(__dirname, '..', '..', '..', 'docs', 'evaluation.md');
const CORPUS = path.join(__dirname, '..', 'corpus.json');

const PARAGRAPHS = [
  'Package: a-doc\nVersion: 1\nSection: doc\nArchitecture: all\nSize: 10\nDepends: libjs-sphinxdoc (>= 5), fonts-x\nDescription: words\n more words',
  'Package: b-doc\nVersion: 2\nSection: doc\nSize: 20000001\nRecommends: libjs-jquery | libjs-other\nDescription: large',
  'Package: libjs-sphinxdoc\nVersion: 5\nSection: javascript\nSize: 5\nDepends: libjs-jquery:all (>= 1.11), libjs-underscore\nDescription: scripts',
  'Package: libjs-jquery\nVersion: 3\nSection: javascript\nSize: 5\nDescription: scripts',
  'Package: libjs-jquery\nVersion: 2\nSection: javascript\nSize: 5\nDescription: an older version',
  'Package: libjs-show\nVersion: 1\nSection: javascript\nSize: 5\nDescription: slides for a page',
];

/**
 * @param {Map<string, import('./packages.js').Package>} packages
 * @param {string} name
 */
function packageOf(packages, name) {
  const found = packages.get(name);
  if (!found) throw new Error(`no package ${name}`);
  return found;
}

test('packages are read as apt writes them, and belong to the first kind that they fit', () => {
  const packages = parsePackages(PARAGRAPHS.join('\n\n'));
  assert.strictEqual(packageOf(packages, 'libjs-jquery').version, '3');
  assert.deepStrictEqual(needsOf('a-doc', packages), ['libjs-jquery', 'libjs-sphinxdoc']);
  assert.deepStrictEqual(['a-doc', 'b-doc', 'libjs-jquery', 'libjs-show'].map((name) => kindOf(packageOf(packages, name))?.kind),
    ['sphinx', 'doxygen', 'libjs', 'editors, players, slides, charts']);
});

test('the order of the candidates is that of a digest of their names, and large ones are left out', () => {
  const packages = parsePackages(PARAGRAPHS.join('\n\n'));
  const named = (/** @type {ReturnType<typeof candidatesOf>} */ list) => Object.fromEntries(list.filter(({ candidates }) => candidates.length).map(({ kind, candidates }) => [kind, candidates]));
  const found = named(candidatesOf(packages));
  assert.deepStrictEqual(found, named(candidatesOf(new Map([...packages].reverse()))));
  assert.deepStrictEqual(Object.keys(found), ['sphinx', 'editors, players, slides, charts', 'libjs']);
  assert.deepStrictEqual([...found.libjs].sort(), ['libjs-jquery', 'libjs-sphinxdoc']);
});

test('the document tells the kinds as the rule has them', () => {
  const text = fs.readFileSync(DOCUMENT, 'utf8');
  assert.ok(text.includes(`: ${KINDS.map(({ kind, most }) => `${kind} ${most}`).join('; ')}.`));
});

/**
 * @param {string} name
 * @param {number} bytes
 * @param {string[]} files
 * @param {{isPart?: boolean, isBroken?: boolean, isLeft?: boolean, hasForeign?: boolean}} more
 */
const page = (name, bytes, files = [name], more = {}) => ({ page: name, size: 1, bytes, files, isPart: false, isBroken: false, isLeft: false, hasForeign: false, ...more });

test('of a package the three pages with the most bytes of scripts, two of those that load the same files', () => {
  const names = (/** @type {import('./types').PageOfPackage[]} */ pages) => pagesOf(pages).map(({ page: name }) => name);
  assert.deepStrictEqual(names([page('a', 2000), page('b', 4000), page('c', 3000), page('d', 1500), page('e', 999)]), ['b', 'c', 'a']);
  assert.deepStrictEqual(names([page('a', 4000, ['x']), page('b', 4000, ['x']), page('c', 4000, ['x']), page('d', 2000, ['y'])]), ['a', 'b', 'd']);
  assert.deepStrictEqual(names([page('a', 4000, ['x'], { isLeft: true }), page('b', 4000, ['x'], { hasForeign: true }), page('c', 4000, ['y'], { isPart: true }), page('d', 4000, ['z'], { isBroken: true }),
    page('e', 1000)]), ['e']);
});

test('the bytes of a page are those of its own scripts and of the files that are there', () => {
  const root = temporaryFolder('corpus');
  fs.mkdirSync(path.join(root, 'usr', 'lib'), { recursive: true });
  fs.writeFileSync(path.join(root, 'usr', 'lib', 'a b.js'), 'x'.repeat(100));
  fs.symlinkSync('a b.js', path.join(root, 'usr', 'lib', 'link.js'));
  fs.symlinkSync('/etc/passwd', path.join(root, 'usr', 'lib', 'outside.js'));
  const html = '<title>A page</title><script>12345</script><script type="application/json">{}</script><script src="lib/a%20b.js?v=1"></script><script src="lib/a%20b.js"></script>'
    + '<script src="/usr/lib/link.js"></script><script src="lib/outside.js"></script><script src="../../../etc/passwd"></script><script src="lib/none.js"></script>';
  const found = scriptsOf(html, path.join(root, 'usr', 'page.html'), root);
  assert.deepStrictEqual(found, { bytes: 205, files: ['/usr/lib/a b.js', '/usr/lib/link.js'], isPart: false, isBroken: true, isLeft: false, hasForeign: false });
  const other = scriptsOf('<title> </title><meta http-equiv="Refresh" content="0; url=x"><script src="//other.example/x.js"></script>', path.join(root, 'usr', 'page.html'), root);
  assert.deepStrictEqual([other.isPart, other.isLeft, other.hasForeign], [true, true, true]);
  const based = scriptsOf('<base href="lib/"><script src="a%20b.js"></script><script src="none.js"></script>', path.join(root, 'usr', 'page.html'), root);
  assert.deepStrictEqual([based.bytes, based.isBroken], [100, false]);
});

test('the list has the pages that are asked for, each of a known package', () => {
  /** @type {import('./types').Corpus} */
  const { packages, pages } = JSON.parse(fs.readFileSync(CORPUS, 'utf8'));
  const names = new Set(packages.map((one) => one.package));
  assert.ok(pages.length >= 100 && names.size >= 40, `${pages.length} pages of ${names.size} packages`);
  assert.strictEqual(new Set(pages.map((one) => one.page)).size, pages.length);
  assert.deepStrictEqual(pages.filter((one) => !names.has(one.package)), []);
});
