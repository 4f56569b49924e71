#!/usr/bin/env node
'use strict';
// mark-sizes.js [--into FILE] PAGE..: how much longer marks make the scripts that pages name, and of what marks consist. By hand; nothing is recorded. A PAGE is
// as for profile.js, with its scripts in its folder.

const { resolveAddress } = require('../browser/folder.js');
const { markAhead } = require('../instrument/ahead.js');
const { parseOptions } = require('../recording/options.js');
const { Source } = require('../texts/source.js');
const { Sources } = require('../texts/sources.js');
require('./cleanup.js');
const { measuredOf, tableOf, writeSection } = require('./measured-pages.js');

/** @typedef {import('./measured-pages.js').MeasuredPage} MeasuredPage */

/**
 * What a mark consists of, each counted in characters of the marks.
 * @type {{[part: string]: RegExp}}
 */
const PARTS = {
  'names of keys and variables': /"(?:[^"\\]|\\.)*"/g,
  'the name `__er.`': /__er\./g,
  delimiters: /[\v\f]/g,
  'numbers of places': /\b\d+\b/g,
};
const LEAST_LINE = 500;

/**
 * Whether code is written in long lines.
 * @param {string} text
 */
const isMinified = (text) => text.length / text.split('\n').length > LEAST_LINE;

/** @param {string[]} inserts */
function sizesOf(inserts) {
  const text = inserts.join('\n');
  const sizes = Object.entries(PARTS).map(([part, pattern]) => /** @type {[string, number]} */ ([part, (text.match(pattern) || []).join('').length]));
  return { all: text.length - inserts.length + 1, parts: new Map(sizes) };
}

/**
 * The texts of the scripts of a page, each with what is inserted into it.
 * @param {MeasuredPage} page
 */
function scriptsOf({ page, words }) {
  const { address, folder } = resolveAddress(page, parseOptions([...words, page]).root);
  const sources = new Sources('objects');
  if (folder) markAhead(sources, folder, address);
  return sources.files.flatMap((file) => (file instanceof Source && file.edited ? [{ text: file.text, inserts: insertsOf(file) }] : []));
}

/** @param {Source} source */
function insertsOf({ text, edited }) {
  const { changedStarts, originalStarts, text: changed } = /** @type {import('../instrument/edits.js').EditedText} */ (edited);
  return changedStarts.flatMap((start, k) => (originalStarts[k] === originalStarts[k + 1] ? [changed.slice(start, changedStarts[k + 1])] : [])).filter((one) => one && one !== text);
}

/**
 * @param {string} name
 * @param {{text: string, inserts: string[]}[]} scripts
 */
function rowOf(name, scripts) {
  const length = scripts.reduce((sum, { text }) => sum + text.length, 0);
  const { all, parts } = sizesOf(scripts.flatMap(({ inserts }) => inserts));
  const without = (/** @type {number} */ size) => ((length + all - size) / length).toFixed(2);
  return [name, scripts.length, Math.round(length / 1000), without(0), ...[...parts.values()].map(without), without([...parts.values()].reduce((a, b) => a + b, 0))];
}

/** @param {string[]} words */
function main(words) {
  const { pages, into } = measuredOf(words);
  /** @type {{text: string, inserts: string[]}[]} */
  const all = [];
  /** @type {Set<string>} */
  const seen = new Set();
  for (const page of pages) all.push(...scriptsOf(page).filter(({ text }) => !seen.has(text) && seen.add(text)));
  const minified = all.filter(({ text }) => isMinified(text));
  const rows = [rowOf('minified', minified), rowOf('other', all.filter((one) => !minified.includes(one))), rowOf('all', all)];
  const head = ['Scripts', 'Number', 'KB', 'Times as long', ...Object.keys(PARTS).map((part) => `without ${part}`), 'without all of these'];
  const table = tableOf(head, rows);
  console.log(table);
  if (into) writeSection(into, 'Size of marks', `By \`recorder/test/mark-sizes.js\`, of the scripts that ${pages.length} pages name, each once.\n\n${table}`, 'What a recording costs');
}

if (require.main === module) main(process.argv.slice(2));
