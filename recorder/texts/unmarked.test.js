'use strict';
// What is said of scripts and handler attributes that stay as they are.

const assert = require('node:assert');
const { test } = require('node:test');
const { Sources } = require('./sources.js');

const SITE = 'http://localhost/';

test('a script by its address, and where the parser stops', () => {
  const sources = new Sources('objects');
  const code = 'a = 1;\n@d class A {}';
  assert.strictEqual(sources.rewriteScript(`${SITE}new.js`, code), code);
  assert.deepStrictEqual(sources.unmarked.list, [
    { what: 'scripts whose syntax is not known', address: `${SITE}new.js`, line: 2, column: 1, message: "Unexpected character '@'" }]);
  assert.deepStrictEqual(sources.unmarked.lines(), [`scripts whose syntax is not known, kept as they are: 1 (${SITE}new.js:2:1: Unexpected character '@')`]);
});

test('a module by the message of the module', () => {
  const sources = new Sources('objects');
  sources.rewriteScript(`${SITE}new.mjs`, 'import { a } from "./a.mjs";\na |> b;');
  assert.deepStrictEqual(sources.unmarked.lines(), [`scripts whose syntax is not known, kept as they are: 1 (${SITE}new.mjs:2:4: Unexpected token)`]);
});

test('a page or data in place of a script, and what is too deep', () => {
  const sources = new Sources('objects');
  sources.rewriteScript(`${SITE}a.js`, '<!doctype html>\n<p>Not found');
  sources.rewriteScript(`${SITE}b.js`, '{"error": 404}');
  sources.rewriteScript(`${SITE}c.js`, `a${'.b'.repeat(200000)}`);
  const [other, deep] = sources.unmarked.lines();
  assert.match(other, /^scripts that are no JavaScript, kept as they are: 2 \(http:\/\/localhost\/a\.js:1:1: .*; http:\/\/localhost\/b\.js:1:9: /);
  assert.match(deep, /^scripts that are nested too deeply, kept as they are: 1 /);
});

test('code of a page by its place in the page', () => {
  const sources = new Sources('objects');
  sources.rewritePage(SITE, '<p>\n<script>a = 1;\nb c</script>\n<p onclick="a b">');
  assert.deepStrictEqual(sources.unmarked.list.map(({ what, line, column }) => [what, line, column]),
    [['scripts whose syntax is not known', 3, 3], ['handler attributes whose syntax is not known', 4, 4]]);
});

test('at most five places in a line, and no commands of a terminal', () => {
  const sources = new Sources('objects');
  for (let k = 0; k < 7; k++) sources.rewriteScript(`${SITE}${k}\u001b.js`, 'a b');
  const [line] = sources.unmarked.lines();
  assert.match(line, /: 7 \(.*4\\u\{1b\}\.js:1:3: Unexpected token; \.\.\)$/);
  assert.ok(!line.includes('\u001b'));
});
