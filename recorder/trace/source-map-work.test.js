'use strict';
// A bundle of many functions with a source map: what is done after the recording grows with the accesses, not with the functions.

const assert = require('node:assert');
const { test } = require('node:test');
const { countRuns } = require('../test/counted-work.js'); // before what it counts
const { LIBRARIES } = require('../options/libraries.js');
const { readRun } = require('../recording/files.js');
const { parseOptions } = require('../recording/options.js');
const { Sources } = require('../texts/sources.js');

const ADDRESS = 'http://localhost/bundle.js';
const FUNCTIONS = 3000;
const OBJECTS = 400;
const TIMERS = 20;
/** What a source map may add. */
const MOST_WITH_MAP = 1.3;
/** What three times as many functions may add: a step more of a search among them. */
const MOST_WITH_FUNCTIONS = 1.1;

const DIGITS = 'ABCDEFGHIJKLMNOPQRSTUVWXYZabcdefghijklmnopqrstuvwxyz0123456789+/';

/** @param {number} number of a map's segment, not negative */
function digitsOf(number) {
  let [left, text] = [number << 1, ''];
  do {
    text += DIGITS[(left & 31) | (left > 31 ? 32 : 0)];
    left >>= 5;
  } while (left);
  return text;
}

/**
 * A bundle, with a segment of its map for each function.
 * @param {number} functions
 */
function bundleOf(functions) {
  const pieces = Array.from({ length: functions }, (_, k) => `function f${k}(a){return a}`);
  const segments = ['AAAA', ...pieces.map(({ length }) => `${digitsOf(length)}AAA`)];
  const map = { version: 3, sources: ['src/a.js'], sourcesContent: ['var list;'], names: [], mappings: segments.join(',') };
  return { code: `${pieces.join('')}function work(){for(const one of list){one.x=1;one.y=one.x}}`, map: JSON.stringify(map) };
}

/**
 * The log of timeouts that all write the same objects.
 * @param {number} sites
 */
function logOf(sites) {
  const numbers = Array.from({ length: TIMERS }, (_, k) => k + 1);
  const objects = Array.from({ length: OBJECTS }, (_, k) => k);
  const begins = ['parse 0 1 inline', 'exec 1', ...numbers.map((k) => `set ${k} ${TIMERS - k} 0`), ...[...numbers].reverse().map((k) => `timer ${k}`)];
  const variables = objects.map((k) => `at ${k} var ${3000000 + k} x own`);
  const accesses = objects.flatMap((k) => numbers.map((timer) => ({ text: `in ${2 + timer} w ${k}`, place: String(sites - 1 - (k % 5)) })));
  return [...[...begins, ...variables].map((text) => ({ text })), ...accesses];
}

/**
 * @param {number} functions
 * @param {boolean} hasMap
 */
async function workOf(functions, hasMap) {
  const { code, map } = bundleOf(functions);
  const sources = new Sources('objects');
  sources.rewriteScript(ADDRESS, hasMap ? `${code}\n//# sourceMappingURL=bundle.js.map` : code);
  await sources.readMaps(async () => map);
  const recorded = /** @type {any} */ ({ given: ADDRESS, sources, intake: { entries: logOf(sources.sites.length), names: [] } });
  const options = { ...parseOptions([ADDRESS]), libraries: LIBRARIES };
  return countRuns(['trace', 'texts', 'common', 'recording'], () => {
    const { text, names } = readRun(recorded, options);
    assert.ok(text.split('\n').length > OBJECTS * TIMERS, 'the accesses are there');
    names.toJson({});
  });
}

test('a source map adds little work', async () => {
  const [without, withMap] = [await workOf(FUNCTIONS, false), await workOf(FUNCTIONS, true)];
  assert.ok(withMap < MOST_WITH_MAP * without, `${withMap} runs with a map, ${without} without`);
});

test('more functions add little work', async () => {
  const [few, many] = [await workOf(FUNCTIONS, true), await workOf(3 * FUNCTIONS, true)];
  assert.ok(many < MOST_WITH_FUNCTIONS * few, `${many} runs with ${3 * FUNCTIONS} functions, ${few} with ${FUNCTIONS}`);
});
