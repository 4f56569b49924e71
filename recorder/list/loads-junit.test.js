'use strict';
// The list as JUnit XML: the elements and attributes that Jenkins and GitLab read, and texts that XML does not allow.

const assert = require('node:assert');
const { test } = require('node:test');
const { Known } = require('./known.js');
const { LoadsListing } = require('./loads-listing.js');
const { LoadRuns } = require('./loads-run.js');
const { junitOf, escapeXml } = require('./loads-junit.js');
const { Problems } = require('./problems.js');
const { judgeLines } = require('../test/list-support.js');

const NAMES = {
  files: [{ address: 'http://localhost/page.html', text: '<p>' }, { address: 'http://localhost/app.js', text: 'setTimeout(slow, 5); setTimeout(quick, 0);\n' }],
  elements: {}, documents: { 0: { address: 'http://localhost/page.html' } }, handlers: {}, intervals: {}, requests: {}, dispatches: {}, objects: {}, values: {}, functions: {},
};
/** What the readers know: Jenkins' junit plugin (SuiteResult, CaseResult) and GitLab's parser read these, and all others would be passed over. */
const READ = {
  testsuites: ['name', 'tests', 'failures', 'errors', 'time'],
  testsuite: ['name', 'tests', 'failures', 'errors', 'skipped', 'time'],
  testcase: ['classname', 'name', 'time'],
  failure: ['type', 'message'],
  'system-out': [],
};

/**
 * The problems of a page with races at some variables.
 * @param {string[]} variables
 */
async function problemsOf(variables) {
  const writes = variables.map((name) => `w var 0 ${name}`);
  const { text, report } = await judgeLines(['parse 0 2 inline', 'exec 2', 'set 1 5', 'set 2 0', 'timer 2', ...writes, 'timer 1', ...writes]);
  /** @type {import('./types').Names['places']} */
  const places = Object.fromEntries(text.split('\n').map((_, k) => [k + 1, [1, 1, 1 + (k % 40)]]));
  return new Problems(text, { ...NAMES, timeouts: { 1: { place: [1, 1, 1] }, 2: { place: [1, 1, 22] } }, places }, report);
}

/**
 * @param {string[][]} loads
 * @param {Known|null} known
 */
async function listingOf(loads, known) {
  const runs = new LoadRuns(false);
  const all = await Promise.all(loads.map(problemsOf));
  return new LoadsListing(all.map((problems) => runs.add(problems)), known, {}, loads.map((_, k) => `${k + 1}.html`));
}

/**
 * The start tags, each with its attributes.
 * @param {string} xml
 */
const tagsOf = (xml) => [...xml.matchAll(/<([a-z-]+)((?: [a-z]+="[^"<]*")*)\/?>/g)].map(([, name, text]) => ({
  name, values: Object.fromEntries([...text.matchAll(/ ([a-z]+)="([^"]*)"/g)].map(([, key, value]) => [key, value])),
}));

test('a test case for each problem: new ones fail, known ones pass', async () => {
  const first = await listingOf([['count'], ['total'], ['count']], null);
  const [{ name: count }] = first.lines.filter(({ words }) => words.includes('"count"'));
  const known = new Known(`${count} it\n`, 'races.known');
  const listing = await listingOf([['count'], ['total'], ['count']], known);
  const xml = junitOf(listing);
  const tags = tagsOf(xml);
  for (const { name, values } of tags) assert.deepStrictEqual(Object.keys(values), READ[/** @type {keyof typeof READ} */ (name)], name);
  assert.strictEqual(tags.filter(({ name }) => name === 'testcase').length, 2);
  const [all] = tags;
  assert.deepStrictEqual([all.values.tests, all.values.failures, all.values.errors], ['2', '1', '0']);
  const [fault] = tags.filter(({ name }) => name === 'failure');
  assert.match(fault.values.message, /total/);
  assert.match(xml, /<testcase classname="eventracer\.[a-z-]+" name="total \[[0-9a-f]{12}\]" time="0"><failure /);
  assert.match(xml, /<system-out>[^<]*seen in 2 of 3 loads: 1\.html/);
  assert.strictEqual(xml.split('\n')[0], '<?xml version="1.0" encoding="UTF-8"?>');
});

test('no problem is a test case that passes', async () => {
  const tags = tagsOf(junitOf(await listingOf([[]], null)));
  assert.deepStrictEqual(tags.map(({ name }) => name), ['testsuites', 'testsuite', 'testcase']);
  assert.strictEqual(tags[0].values.failures, '0');
});

test('what XML does not allow, and what has a meaning in it', () => {
  assert.strictEqual(escapeXml('<a href="x">&\'</a>'), '&#60;a href=&#34;x&#34;&#62;&#38;&#39;&#60;/a&#62;');
  assert.strictEqual(escapeXml('a\0b\x1b[31m\x7f\x85\ufffe\ud800'), 'a\\u{0}b\\u{1b}[31m\\u{7f}\\u{85}\\u{fffe}\\u{d800}');
  assert.strictEqual(escapeXml('line\n\ttab\r]]>'), 'line&#10;&#9;tab&#13;]]&#62;');
  assert.strictEqual(escapeXml('\u{1f600} é'), '\u{1f600} é');
});
