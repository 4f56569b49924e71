'use strict';
// What the list calls elements without an id.

const assert = require('node:assert');
const { test } = require('node:test');
const { FIRST_FIELD } = require('../common/numbers.js');
const { Actions } = require('../races/actions.js');
const { Words } = require('../races/words.js');
const { ElementWords } = require('./element-words.js');

/** @type {import('./types').Names} */
const NAMES = {
  files: [{ address: 'http://localhost/page.html', text: '<i></i>\n<div class="menu">\n<script src="lib/app.js"></script>\n<p id="a">' }, { address: 'http://localhost/x.js', text: 'make();\n' }],
  elements: {
    1: { tag: 'i', place: [0, 1, 1] }, 2: { tag: 'div', place: [0, 2, 1] }, 3: { tag: 'script', source: 'lib/app.js', place: [0, 3, 1] }, 4: { tag: 'p', id: 'a', place: [0, 4, 1] },
    5: { tag: 'div' }, 6: { tag: 'div', standsFor: 5 }, 7: { tag: 'body', place: [0, 1, 1] }, 8: { tag: 'span' }, 9: { tag: 'script', loads: 'http://localhost/x.js' },
  },
  documents: {}, handlers: {}, timeouts: {}, intervals: {}, requests: {}, dispatches: {}, objects: {}, functions: {}, values: {}, places: { 2: [1, 1, 1] },
};
const words = new Words(NAMES, new Actions('webtrace 3\nnew 0 5 plain\nend\n'));
const elements = new ElementWords(words, (place) => (place ? `${words.fileName(place[0])}:${place[1]}` : ''));

test('by the file, the classes, or the place in the page or of the code that made it', () => {
  assert.deepStrictEqual([1, 2, 3, 4, 5, 6, 7, 8, 9].map((number) => elements.of(number)),
    ['i at page.html:1', 'div.menu', 'script app.js', 'p#a', 'div made at x.js:1', 'div made at x.js:1', 'body', 'span', 'script x.js']);
});

test('what the browser does for a click or a submit that no handler takes', () => {
  const links = ['<a href="../a.html?b=c">a', '<a href="#part">b', '<a href="#">c', '<a href="javascript:go()">d', '<a>e', '<a href="#TOP">f', '<form action=x>'];
  const facts = { ...NAMES, files: [{ address: 'http://localhost/page.html', text: links.join('\n') }], elements: Object.fromEntries(links.map((_, k) => [k + 1, { tag: k === 6 ? 'form' : 'a', place: /** @type {[number, number, number]} */ ([0, k + 1, 1]) }])) };
  const some = new ElementWords(new Words(facts, new Actions('webtrace 3\nend\n')), () => '');
  assert.deepStrictEqual(links.map((_, k) => some.withoutHandler(k + 1, 'click')), ['follows the link to a.html', 'follows the link to #part', '', '', '', '', '']);
  assert.deepStrictEqual([some.withoutHandler(7, 'submit'), some.withoutHandler(1, 'mousedown'), some.withoutHandler(99, 'click')], ['sends the form', '', '']);
});

test('where two sides are told apart, with one place', () => {
  assert.deepStrictEqual([1, 5].map((number) => words.apart(() => elements.of(number))), ['i (page.html:1:1)', 'div (x.js:1:1)']);
});

test('beside its place an element is called without it', () => {
  assert.deepStrictEqual([1, 5, 3].map((number) => elements.named(number)), ['i', 'div', 'script app.js']);
});

test('in the words of a location', () => {
  const locations = [`var ${FIRST_FIELD + 1} class`, 'slot 5 click/1', `var ${FIRST_FIELD + 4} content`, 'var 0 x'];
  assert.deepStrictEqual(locations.map((one) => elements.inText(one, words.location(one).text)), ['class of i at page.html:1', 'click of div made at x.js:1', 'the content of p#a', 'x']);
});
