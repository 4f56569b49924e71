'use strict';
// Pages: which scripts, handlers and addresses are instrumented, what the browser then reads, and that all else stays as it is.

const assert = require('node:assert');
const { test } = require('node:test');
const { codeOfAddress } = require('../common/html.js');
const { HANDLER_NAMES } = require('../common/handler-names.js');
const { Sources } = require('../texts/sources.js');
const { loadParse5 } = require('./debian.js');
const { withoutMarks } = require('./marks/delimiters.js');
const { readTags } = require('./tags.js');

const ADDRESS = 'http://localhost/';
const HANDLERS = new Set(HANDLER_NAMES);
const LINKS = new Set(['href', 'xlink:href', 'src', 'action', 'formaction']);

/**
 * The parts of parse5's nodes that the comparison reads.
 * @typedef {{nodeName: string, tagName?: string, namespaceURI?: string, value?: string, data?: string, attrs?: {name: string, prefix?: string, value: string}[],
 *   childNodes?: TreeNode[], content?: TreeNode}} TreeNode
 */

/** @param {string} html */
const treeOf = (html) => /** @type {TreeNode} */ (/** @type {unknown} */ (loadParse5().parse(html)));

/** @param {string} html */
function rewritten(html) {
  const sources = new Sources();
  return { text: sources.rewritePage(ADDRESS, html), sources };
}

/**
 * What the browser reads of an attribute, without what was inserted.
 * @param {string} name
 * @param {string} value
 * @returns {unknown}
 */
function ownValue(name, value) {
  if (HANDLERS.has(name)) return withoutMarks(value);
  if (name === 'srcdoc') return ownTree(treeOf(value));
  return (LINKS.has(name) && withoutMarks(codeOfAddress(value, decodeURIComponent) || '')) || value;
}

/**
 * A tree as values to compare, without what was inserted.
 * @param {TreeNode} node
 * @returns {unknown}
 */
function ownTree({ nodeName, namespaceURI = '', value, data, attrs = [], childNodes = [], content }) {
  const attributes = attrs.map(({ name, prefix, value: text }) => [name, prefix, ownValue(prefix ? `${prefix}:${name}` : name, text)]);
  return [nodeName, namespaceURI, value === undefined ? data : withoutMarks(value), attributes, childNodes.map(ownTree), content && ownTree(content)];
}

/**
 * The texts of scripts, handlers and addresses in a tree that begin with a mark.
 * @param {TreeNode} node
 * @returns {string[]}
 */
function instrumentedIn({ nodeName, attrs = [], childNodes = [], content }) {
  const text = childNodes.map(({ value = '' }) => value).join('');
  const values = attrs.map(({ value }) => codeOfAddress(value, decodeURIComponent) || value).filter((value) => /^\v/.test(value));
  const own = (nodeName === 'script' && text.includes('__er.') ? [text] : []).concat(values).map((one) => withoutMarks(one).trim());
  return [...own, ...childNodes.flatMap(instrumentedIn), ...(content ? instrumentedIn(content) : [])];
}

/**
 * Pages, what of them is instrumented as the browser reads it, and what is counted as missed.
 * @type {[page: string, instrumented: string[], missed?: string[]][]}
 */
const PAGES = [
  // comments and sections
  ['<!-- a --!><script>x=1</script>', ['x=1']],
  ['<!--><script>x=1</script>', ['x=1']],
  ['<!---><script>x=1</script>', ['x=1']],
  ['<!-- <script>x=1</script> -->', []],
  ['<!-- a --><script>x=1</script>', ['x=1']],
  ['<p><![CDATA[ > <script>x=1</script> ]]>', ['x=1']],
  ['<svg><![CDATA[ > <script>x=1</script> ]]></svg>', []],
  ['<?php a ?><script>x=1</script>', ['x=1']],
  ['<!doctype html><script>x=1</script>', ['x=1']],
  ['</ a="<script>x=1</script>"><script>y=1</script>', ['y=1']],
  // texts
  ['<textarea><script>x=1</script></textarea>', []],
  ['<title><script>x=1</script></title>', []],
  ['<style><script>x=1</script></style>', []],
  ['<noscript><p onclick="x=1"></noscript>', []],
  ['<iframe><script>x=1</script></iframe>', []],
  ['<xmp><script>x=1</script></xmp>', []],
  ['<noframes><script>x=1</script></noframes>', []],
  ['<p><noframes><script>x=1</script></noframes>', []],
  ['<noembed><script>x=1</script></noembed>', []],
  ['<plaintext><script>x=1</script>', []],
  ['<template><p onclick="x=1"><script>y=1</script></template>', ['x=1', 'y=1']],
  // ends of scripts
  ['<script>x=1</script >', ['x=1']],
  ['<script>x=1</script/>', ['x=1']],
  ['<script>x=1</script foo=">">', ['x=1']],
  ['<script>x=1', []],
  ['<script>x="<!--<script>"; y="</script>"; z="-->"</script>', ['x="<!--<script>"; y="</script>"; z="-->"']],
  ['<script>x=1 // <!-- <script> </script> -->\n</script><p onclick="y=1">', ['x=1 // <!-- <script> </script> -->', 'y=1']],
  ['<script/>x=1</script>', ['x=1']],
  ['<SCRIPT>x=1</ScRiPt>', ['x=1']],
  // SVG and MathML
  ['<svg><script>var a=1,b=2; x = a &lt; b</script></svg>', ['var a=1,b=2; x = a < b']],
  ['<svg><script>x = a &amp;&amp; b &#62; c</script></svg>', ['x = a && b > c']],
  ['<svg><script><![CDATA[x = a < b]]></script></svg>', ['x = a < b']],
  ['<svg><script>//<![CDATA[\nx = a < b\n//]]></script></svg>', ['//\nx = a < b\n//']],
  ['<svg><script href="a.js"/></svg><script>y=1</script>', ['y=1']],
  ['<svg><script xlink:href="a.js"></script></svg><script>y=1</script>', ['y=1']],
  ['<svg><script src="a.js">y=1</script></svg>', ['y=1']],
  ['<svg><script>x=1<g/></script></svg>', [], ['SVG scripts with other elements inside']],
  ['<math><script>x=1</script></math>', []],
  ['<math><mtext><script>x=1</script></mtext></math>', ['x=1']],
  ['<svg><style><a onclick="x=1"></a></style></svg>', ['x=1']],
  ['<svg><title><script>x=1</script></title></svg>', ['x=1']],
  ['<svg><foreignObject><script>x="&lt;"</script></foreignObject></svg>', ['x="&lt;"']],
  ['<svg><a xlink:href="javascript:x=1"></a></svg>', ['x=1']],
  ['<svg onload="x=1"><circle OnClick="y=1"/></svg>', ['x=1', 'y=1']],
  ['<select><script>x=1</script></select>', ['x=1']],
  ['<select><title><script>x=1</script></title></select>', []],
  ['<table><script>x=1</script><p onclick="y=1"></table>', ['y=1', 'x=1']],
  // attributes
  ['<p =onclick="x=2" onfocus="y=1">', ['y=1']],
  ['<p\u00a0onclick="x=1">', []],
  ['<p\vonclick="x=1">', []],
  ['<p onclick=x=1>', ['x=1']],
  ['<p \u{1f600}="\u{1f600}" \u{1f600}a=b onclick="x=\'\u{1f600}\'"onfocus=y=1>', ['x=\'\u{1f600}\'', 'y=1']],
  ['<p onclick="x=1"onfocus = y=1>\r\n<p\r\nonblur\r\n=\r\n"z=1">', ['x=1', 'y=1', 'z=1']],
  ['<p onclick = \'x=1\'title=a>', ['x=1']],
  ['<p onclick="x=1" onclick="x=2">', ['x=1']],
  ['<body><body onclick="x=1">', ['x=1']],
  ['<b onclick="x=1"><p>a</b>c', ['x=1', 'x=1']],
  ['<p onclick="f(\'&copy\', \'caf&#233\')">', ['f(\'\u00a9\', \'caf\u00e9\')']],
  ['<p onclick="f(\'&toString;&constructor;\')">', ['f(\'&toString;&constructor;\')']],
  ['<p onclick="x=\'&#x110000;&#99999999;\'">', ['x=\'\ufffd\ufffd\'']],
  ['<p onclick="x=\'&AMP;&Lt;&hellip;&copy=1&#128;\'">', ['x=\'&\u226a\u2026&copy=1\u20ac\'']],
  ['<p onclick="x=\'a&#13;&#10;b\'.length">', [], ['handler attributes whose syntax is not known']],
  ['<p onclick="x=`a&#13;b`">', ['x=`a\rb`']],
  ['<p onsale="true" only=x onlynumbers="1" on="x" onclicks="x=1">', []],
  ['<p onclick="not JavaScript">', [], ['handler attributes whose syntax is not known']],
  // addresses
  ['<a href="javascript:x=1">', ['x=1']],
  ['<a href=" java\tscr\nipt:x=1 ">', ['x=1']],
  ['<a href="JAVASCRIPT:x=%271%27">', ['x=\'1\'']],
  ['<a href="javascript:x=1//a\ny=2">', ['x=1//ay=2']],
  ['<a href="javascript:x=\'%zz\'">', ['x=\'%zz\'']],
  ['<a href="javascript:void(0)">', []],
  ['<a href="javascript:x=\'%E9\'">', [], ['javascript: addresses that are not UTF-8']],
  ['<a href="javascript:not JavaScript">', [], ['javascript: addresses whose syntax is not known']],
  ['<base href="javascript:x=1"><link href="javascript:x=1"><img src="javascript:x=1">', []],
  ['<iframe src="javascript:\'a\'"></iframe>', ['\'a\'']],
  ['<form action="javascript:x=1"><button formaction="javascript:y=1"></button></form>', ['x=1', 'y=1']],
  // types of scripts
  ['<script language="">x=1</script><script language="jscript">y=1</script>', ['x=1', 'y=1']],
  ['<script type="text/livescript">x=1</script><script type="">y=1</script>', ['x=1', 'y=1']],
  ['<script type=" ">x=1</script><script type="application/jscript">y=1</script>', []],
  ['<script type=" Text/JavaScript ">x=1</script><script type="text/javascript;charset=utf-8">y=1</script>', ['x=1']],
  ['<script type="text/javascript1.5">x=1</script><script type="text/javascript1.6">y=1</script>', ['x=1']],
  ['<script type="module">x=1</script><script type="application/json">{"a":1}</script>', ['x=1']],
  ['<script language="vbscript">x=1</script><script type="text/javascript" language="vbscript">y=1</script>', ['y=1']],
];

for (const [page, instrumented, missed = []] of PAGES) {
  test(JSON.stringify(page), () => {
    const { text, sources } = rewritten(page);
    const tree = treeOf(text);
    assert.deepStrictEqual(instrumentedIn(tree), instrumented);
    assert.deepStrictEqual(ownTree(tree), ownTree(treeOf(page)));
    assert.deepStrictEqual([...sources.missed.keys(), ...sources.unmarked.list.map(({ what }) => what)], missed);
  });
}

/** @param {number} seed */
function random(seed) {
  let state = seed;
  return () => {
    state = (state + 0x6d2b79f5) | 0;
    let mixed = Math.imul(state ^ (state >>> 15), 1 | state);
    mixed = (mixed + Math.imul(mixed ^ (mixed >>> 7), 61 | mixed)) ^ mixed;
    return ((mixed ^ (mixed >>> 14)) >>> 0) / 2 ** 32;
  };
}

/** Without `select` and `noframes`, which parse5's own tree has otherwise than the browser (tags.js, `correct`). */
const TOKENS = ['<script>', '</script>', '<script type=module>', '<svg>', '</svg>', '<math>', '</math>', '<style>', '</style>', '<title>', '</title>',
  '<textarea>', '</textarea>', '<table>', '</table>', '<tr>', '<td>', '<template>', '</template>', '<p onclick="f()">',
  '<b onclick=g()>', '</b>', '</p>', '<body onload=f()>', '<html onresize=\'g("a")\'>', '<a href=javascript:f()>', '</a>', '<i onblur=f() onblur=g() x=1>', '<!--',
  '-->', '--!>', '<!-->', '<![CDATA[', ']]>', '<?a', '>', '<', '"', '\'', '=', '/', '&lt;', '&copy', '&toString;', '&', '\r\n', '\n', '\r', ' ', 'x=1',
  'f(a);', 'text', '<foreignObject>', '</foreignObject>', '<desc>', '<iframe srcdoc="<script>f()</script><p onclick=&quot;g()&quot;>">', '</iframe>', '<xmp>', '</xmp>',
  '<noscript>', '</noscript>', '<plaintext>', '<image onerror="f(\'&hellip;\')">', '<input onfocus=f()>', '<script/>', '<script src=a.js>',
  '<mi>', '<mtext>', '<div onclick=f>', '</div>', '<SCRIPT >', '</ScRiPt x>', '</script/', '<p onclick=f()', '</', '<div', '\u00a0', '\u0000', '<br/>', '</br>',
  '<form action="javascript:f(\'&amp;\')">', '<script integrity=sha256-x>', '<button formaction=javascript:g()>'];
const PAGES_OF_TOKENS = 8000;
const MOST_TOKENS = 16;

/**
 * The page without what is dropped.
 * @param {string} html
 */
const withoutIntegrity = (html) => html.replaceAll(' integrity=sha256-x', ' ');

test('pages of random tokens: the copy has the tree of the page, and nothing but attributes and texts of scripts is changed', () => {
  const next = random(7);
  for (let k = 0; k < PAGES_OF_TOKENS; k++) {
    const page = Array.from({ length: 2 + Math.floor(next() * MOST_TOKENS) }, () => TOKENS[Math.floor(next() * TOKENS.length)]).join('');
    const sources = new Sources();
    const text = sources.rewritePage(ADDRESS, page);
    assert.deepStrictEqual(ownTree(treeOf(withoutIntegrity(text))), ownTree(treeOf(withoutIntegrity(page))), JSON.stringify(page));
    const ranges = readTags(page).flatMap(({ attributes, text: code }) => (code ? [...attributes, code] : attributes));
    const [file] = sources.files;
    for (const { start, end } of ('edits' in file && file.edits) || []) {
      assert.ok(ranges.some((range) => range.start <= start && end <= range.end), `${start} to ${end} of ${JSON.stringify(page)}`);
    }
  }
});

test('two pages in attributes have places of their own, and what a replay puts into one comes into both', () => {
  const sources = new Sources();
  const page = '<iframe srcdoc="<i></i><b id=a></b>"></iframe><iframe srcdoc="<b id=c></b>"></iframe>';
  /** @param {string} address */
  const insertions = (address) => (address === `${ADDRESS} (srcdoc)` ? [{ start: 0, end: 0, insert: '<u>' }] : []);
  assert.strictEqual(sources.rewritePage(ADDRESS, page, insertions), '<iframe srcdoc="<u><i></i><b id=a></b>"></iframe><iframe srcdoc="<u><b id=c></b>"></iframe>');
  assert.deepStrictEqual(sources.byAddress.get(`${ADDRESS} (srcdoc)`)?.tags.get('b'), [{ id: 'a', source: undefined, offset: 7 }]);
  assert.deepStrictEqual(sources.byAddress.get(`${ADDRESS} (srcdoc 2)`)?.tags.get('b'), [{ id: 'c', source: undefined, offset: 0 }]);
});

test('a page takes time by its length, also one with many comments in a script, and one with deep elements', () => {
  for (const page of [`<script>${'<!--'.repeat(64000)}</script>`, '<div>'.repeat(100000), '<table>'.repeat(2000) + '<p>a'.repeat(20000), '<b><p>'.repeat(2000) + '</b>'.repeat(2000)]) {
    const begin = process.cpuUsage();
    readTags(page);
    const { user, system } = process.cpuUsage(begin);
    assert.ok(user + system < 5e6, `${user + system} microseconds`);
  }
});
