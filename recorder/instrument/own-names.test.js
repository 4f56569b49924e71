'use strict';
// Names in scripts: those of the browser that a page takes for its own, the window by other names, and those that modules import. No browser.

const assert = require('node:assert');
const { test } = require('node:test');
const { Sources } = require('../texts/sources.js');

/**
 * @param {string[]} names
 * @param {'globals'|'objects'} depth
 */
function sourcesWith(names, depth = 'objects') {
  const sources = new Sources(depth);
  sources.builtins.set(names);
  return sources;
}

/**
 * The calls of marks of a text, by their names and first arguments.
 * @param {string} text
 * @param {RegExp} pattern
 */
const callsOf = (text, pattern) => [...text.matchAll(pattern)].map(([, ...words]) => words.join(' '));

test('a name of the browser is a variable from the script on that declares it', () => {
  const sources = sourcesWith(['status', 'closed', 'find', 'name', 'document']);
  const used = () => callsOf(sources.rewriteScript(`used-${Math.random()}.js`, 'say(status, closed, name, document); find();'), /__er\.r\("(\w+)"/g);
  assert.deepStrictEqual(used(), ['say']);
  const declares = sources.rewriteScript('declares.js', 'var status = 1, document = 2; let closed; function find() {} (function () { var name; })()');
  assert.match(declares, /,\[\["status",true\],\["find",false\],\["closed",false\]\]\)/);
  assert.deepStrictEqual(used(), ['say', 'status', 'closed', 'find']);
});

test('what only reaches the window is no variable, and one of the page keeps its name where not all of the browser\'s are known', () => {
  assert.doesNotMatch(sourcesWith(['self']).rewriteScript('a.js', 'var self = this; self.x;'), /"self"/);
  const ahead = new Sources('globals');
  ahead.builtins.set(['document'], false);
  assert.match(ahead.rewriteScript('a.js', 'var status = 1;'), /\[\["status",true\]\]/);
});

test('the window by the name under which a function gets it', () => {
  const reads = (/** @type {string} */ code) => callsOf(sourcesWith(['window', 'document'], 'globals').rewriteScript('a.js', code), /__er\.ro\([^"]*"(\w+)"/g);
  assert.deepStrictEqual(reads('!function (e) { e.App; }(window)'), ['App']);
  assert.deepStrictEqual(reads('(function (e, t) { e.no; t.App; }).call(this, 1, typeof window < "u" ? window : this)'), ['App']);
  assert.deepStrictEqual(reads('(function () { !function (e) { e.no; }(this); })(); (function (e) { (function (e) { e.no; })(1); })(window)'), []);
});

test('the object of a keyed access is a read of its variable', () => {
  const marked = sourcesWith([]).rewriteScript('a.js', 'function f() { var kept = {}; return { get: (k) => kept[k], set: async (k) => { kept[k] = await k; }, clear: () => { kept = {}; } }; }');
  assert.deepStrictEqual(callsOf(marked, /__er\.(v|z)\(__er_1,"(kept)"/g), ['v kept', 'v kept', 'z kept']);
});

test('imported names are variables of the module that exports them', () => {
  const sources = sourcesWith([]);
  const uses = sources.rewriteScript('http://x/uses.mjs', 'import { n as m, f } from "./has.mjs"; import all from "library"; import * as has from "/has.mjs"; f(m, all, has.n);');
  assert.deepStrictEqual(callsOf(uses, /__er\.V\((\d+),"(\w+)"/g), ['2000001 f', '2000001 n', '2000001 n']);
  const has = sources.rewriteScript('http://x/has.mjs', 'let a = 0; export { a as n }; export function f() { a++; } export * from "./more.mjs"; export { g as h } from "./more.mjs";');
  assert.match(has, /__er\.E\(2000001,__er_1,\[\["n","a"\]\],\[\["h",\{"module":2000002,"name":"g"\}\]\],\[2000002\]\);/);
});

test('a module that was marked before it is named has one number', () => {
  const sources = sourcesWith([]);
  sources.rewriteScript('http://x/first.mjs', 'export let n = 0; export const add = () => n++;');
  assert.match(sources.rewriteScript('http://x/second.mjs', 'import { n } from "./first.mjs"; n;'), /__er\.V\(2000000,"n"/);
});
