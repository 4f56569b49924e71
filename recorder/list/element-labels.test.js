'use strict';
// How elements without an id are distinguished.

const assert = require('node:assert');
const { test } = require('node:test');
const { attributeOf, labelOf } = require('./element-labels.js');

test('an element is told by the text after its tag, or by its classes', () => {
  assert.strictEqual(labelOf('<a class="header" href="#x">The Rust   Book</a>', 'a'), ' "The Rust Book"');
  assert.strictEqual(labelOf('<a href=x>Tom &amp; Jerry, the longest text of all</a>', 'a'), ' "Tom & Jerry, the longest text.."');
  assert.strictEqual(labelOf('<i class="icon open wide"></i>', 'i'), '.icon.open');
  assert.strictEqual(labelOf("<LI\tclass='one'><b>x</b>", 'li'), '.one');
});

test('an attribute of the tag itself', () => {
  assert.deepStrictEqual([`<a id=x href=" /a?b ">`, '<A HREF=b.html class=c>', "<a title='href=1'>x", '<a>', '<b href="c">'].map((source) => attributeOf(source, 'a', 'href')), ['/a?b', 'b.html', '', '', '']);
});

test('what says nothing is no label', () => {
  assert.strictEqual(labelOf('<a>-</a>', 'a'), '');
  assert.strictEqual(labelOf('<p>text', 'a'), '');
  assert.strictEqual(labelOf('<a href="', 'a'), '');
  assert.strictEqual(labelOf('document.write("<a>x</a>")', 'a'), '');
});
