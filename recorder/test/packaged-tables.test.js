'use strict';
// The tables of what the list is worth: how pages add up, and that docs/evaluation-tables.md has a place for them. No browser.

const assert = require('node:assert');
const fs = require('node:fs');
const path = require('node:path');
const { test } = require('node:test');
const { tablesOf, withTables } = require('./packaged-tables.js');

const DOCUMENT = path.join(__dirname, '..', '..', 'docs', 'evaluation-tables.md');
/**
 * @param {string} name
 * @param {number} size
 * @param {import('./packaged-tables.js').Counts} looks
 */
const page = (name, size, looks) => ({
  page: name, races: size, groups: size, problems: size, lines: size, lost: 0, looks, places: { own: size, library: size, none: 2 * size, access: size, byWay: 0 },
  firsts: { own: size, all: 4 * size },
  ofProblems: { equal: size, all: 2 * size }, ofRaces: { equal: 0, all: size },
});

test('pages add up, and one without races is named alone', () => {
  const [pages, sentences, looks] = tablesOf([page('a', 1, { other: 1 }), page('b', 3, { other: 2, counter: 1 }), page('c', 0, {})], 'Recorded by hand.');
  assert.deepStrictEqual(pages.split('\n').slice(2), ['| a | 1 | 1 | 1 | 1 | 25 % (25 %) | 1 of 2 | 0 of 1 |', '| b | 3 | 3 | 3 | 3 | 25 % (25 %) | 3 of 6 | 0 of 3 |',
    '| together | 4 | 4 | 4 | 4 | 25 % (25 %) | 4 of 8 | 0 of 4 |']);
  assert.strictEqual(sentences, 'Recorded by hand. Of the sides of the races by which problems are told, 25 % have a place outside of libraries. Sides of races without any place: 50 %. Problems that came in each recording by their words, and have another name: 0. No race: c.');
  assert.deepStrictEqual(looks.split('\n').slice(2), ['| `other` | 3 | b 2, a 1 |', '| `counter` | 1 | b 1 |']);
});

test('the document takes them in the place of its own, and nothing else of it changes', () => {
  const document = fs.readFileSync(DOCUMENT, 'utf8');
  const tables = tablesOf([page('a', 1, { other: 1 })], 'Recorded by hand.');
  const renewed = withTables(document, tables);
  tables.forEach((one) => assert.ok(renewed.includes(`\n\n${one}\n\n`), one));
  const begin = document.indexOf('| Page | Races |');
  const end = document.indexOf('\n\n', document.indexOf('| Looks like | Problems | Of |')) + 2;
  assert.strictEqual(renewed, document.slice(0, begin) + tables.join('\n\n') + '\n\n' + document.slice(end));
  assert.strictEqual(withTables(renewed, tables), renewed);
  assert.throws(() => withTables('no table', tables), /no such table: \| Page \| Races/);
});
