'use strict';
// The file of known races, the list over several runs, and SARIF, without a browser.

const assert = require('node:assert');
const { spawnSync } = require('node:child_process');
const fs = require('node:fs');
const path = require('node:path');
const { test } = require('node:test');
const { Known, KnownFault } = require('./known.js');
const { Listing } = require('./listing.js');
const { Problems } = require('./problems.js');
const { linesOf, totalsOf } = require('./outputs.js');
const { plainListing } = require('./json.js');
const { sarifOf } = require('./sarif.js');
const { writeWhole, WriteFault } = require('../common/whole-file.js');
const { LOOKS } = require('./patterns/table.js');
const { temporaryFolder } = require('../test/cleanup.js');
const { judgeLines } = require('../test/list-support.js');

const folder = temporaryFolder('known-test');
const PAGE = 'http://localhost/a b/page.html';
const NAMES = {
  files: [{ address: PAGE, text: '<script>\nx = 1;\nx = 2;\ny = 1;\n</script>' }], elements: { 1: { tag: 'script', source: 'a.js' }, 2: { tag: 'script', source: 'b.js' } },
  documents: {}, handlers: {}, timeouts: {}, intervals: {}, requests: {}, dispatches: {}, objects: {}, functions: { '0:2:1': 'first' }, values: {}, places: {},
};

/**
 * Two scripts write x, and others what else is said; the second run has them in the other order.
 * @param {{isTurned?: boolean, more?: string[], address?: string}} options
 */
async function run({ isTurned = false, more = [], address = PAGE } = {}) {
  const scripts = isTurned ? [2, 1] : [1, 2];
  const lines = ['parse 0 1 async', 'parse 0 2 async', ...scripts.flatMap((number) => [`exec ${number}`, 'w var 0 x', ...more.map((name) => `w var 0 ${name}`)])];
  const { text, report } = await judgeLines(lines);
  /** @type {import('./types').Names['places']} */
  const places = {};
  text.split('\n').forEach((line, k) => { if (line === 'w var 0 x') places[k + 1] = [0, Object.keys(places).length === Number(isTurned) ? 2 : 3, 1]; });
  return new Problems(text, { ...NAMES, places, files: [{ ...NAMES.files[0], address }] }, report);
}

const NAME = /^[0-9a-f]{12}$/;

test('a problem that is known is set apart, and the others are told', async () => {
  const one = await run({ more: ['y'] });
  const [first] = new Listing([one], null).problems.filter(({ words }) => words.startsWith('"x"'));
  assert.match(first.name, NAME);
  const known = new Known(`# why\n${first.name} anything\n0123456789ab gone "z"\n`, 'known');
  const listing = new Listing([await run({ more: ['y'] })], known);
  assert.deepStrictEqual(listing.fresh().map(({ words }) => words.slice(0, 3)), ['"y"']);
  const lines = linesOf(listing);
  assert.match(lines[0], /^page {2}`y` keeps what is written last, by the script b\.js or by the script a\.js +other$/);
  assert.match(lines[5], /^ {4}[0-9a-f]{12} \(for races\.known\)$/);
  assert.strictEqual(lines[7], 'Known, in known:');
  assert.match(lines[8], /^ {2}[0-9a-f]{12} `x` keeps what is written last, by the script b\.js or by the script a\.js at page\.html:2$/);
  assert.strictEqual(lines[lines.length - 1], 'Known, and not seen: 0123456789ab gone "z"');
  const all = new Listing([one], new Known(listing.problems.map(({ name }) => name).join('\n'), 'known'));
  assert.strictEqual(linesOf(all)[0], 'No race that is not known.');
});

test('a name of a race alone is known too', async () => {
  const one = await run();
  const [{ name }] = one.ofRaces;
  assert.strictEqual(new Listing([one], new Known(`${name}\n`, 'known')).fresh().length, 0);
});

test('a known race stays known after a build that gives its file another digest, and other files have names of their own', async () => {
  const nameOf = async (/** @type {string} */ file) => (await run({ address: `http://localhost/assets/${file}` })).list[0].name;
  const [name, ...others] = await Promise.all(['index-BxK3a_9Q.js', 'index-Cq-7_bZk.js', 'index-PLXRPBPE.js', 'index-3f2a9c1b.js'].map(nameOf));
  assert.deepStrictEqual(others, [name, name, name]);
  const files = ['index-settings.js', 'index-download.js', 'jquery-3.5.1.js', 'chunk-VENDORS1.js', 'chunk-VENDORS9.js'];
  assert.strictEqual(new Set([name, ...await Promise.all(files.map(nameOf))]).size, files.length + 1);
});

test('a file of known races keeps its comments, and what is new comes where it belongs', async () => {
  const listing = new Listing([await run({ more: ['y'] })], null);
  const empty = Known.readFile(path.join(folder, 'none'), true);
  const text = empty.textWith(listing.problems);
  assert.strictEqual(text.split('\n').length, 4);
  assert.strictEqual(new Known(text, 'known').textWith(listing.problems), text);
  const [head, x] = text.split('\n');
  const commented = `${head}\n# ticket 12\n${x} \n\n# the end\n`;
  const again = new Known(commented, 'known').textWith(listing.problems).split('\n');
  assert.deepStrictEqual(again.slice(0, 3), [head, '# ticket 12', x]);
  assert.match(again[3], /^[0-9a-f]{12} "y"/);
  assert.deepStrictEqual(again.slice(4), ['', '# the end', '']);
});

test('the first line of an older file stays the file\'s', async () => {
  const old = '# Races that are known (./er_page --known, docs/viewing.md): a name a line, its words behind it. Take a line away to be told again.';
  const { problems } = new Listing([await run()], null);
  const text = new Known(`${old}\nffffffffffff "z" is written\n`, 'known').textWith(problems);
  assert.strictEqual(text.split('\n')[0], old);
});

test('what is wrong in a file of known races is told with its line', () => {
  assert.throws(() => new Known('# a\n\nabc race\n', 'known'), (fault) => fault instanceof KnownFault && /^known, line 3: no name of a race/.test(fault.message));
  assert.throws(() => new Known('0123456789ab\n0123456789ab\n', 'known'), /line 2: the name 0123456789ab is in an earlier line too/);
  assert.throws(() => Known.readFile(path.join(folder, 'none'), false), /there is no such file/);
  assert.throws(() => Known.readFile(folder, true), KnownFault);
});

test('several runs: how often, and whether in both orders', async () => {
  const listing = new Listing([await run(), await run({ isTurned: true }), await run({ more: ['y'] })], null);
  const [x, y] = ['"x"', '"y"'].flatMap((name) => listing.problems.filter(({ words }) => words.startsWith(name)));
  assert.strictEqual(listing.seenInWords(x), 'seen in 3 of 3 runs, in both orders');
  assert.strictEqual(listing.seenInWords(y), 'seen in 1 of 3 runs: runs/3.html');
  assert.deepStrictEqual([...x.seen.values()].map(({ runs, orders }) => [runs, orders]), [[[1, 2, 3], 3]]);
  const plain = plainListing(listing, { page: 'page', status: 1, files: [], folder: null });
  assert.deepStrictEqual(plain.problems.map(({ runs, bothOrders }) => [runs, bothOrders]).sort(), [[[1, 2, 3], true], [[3], false]]);
  assert.deepStrictEqual(plain.problems.find(({ bothOrders }) => bothOrders)?.races[0].places.map((place) => [place?.line, place?.function]), [[2, 'first'], [3, undefined]]);
});

test('SARIF has a rule for each kind, and a result for each problem', async () => {
  const one = await run({ more: ['y'] });
  const [x] = one.list.filter(({ words }) => words.startsWith('"x"'));
  const listing = new Listing([one], new Known(`${x.name}\n`, 'known'));
  const { version, runs: [{ tool, results }] } = sarifOf(listing, { page: PAGE, folder: null });
  assert.strictEqual(version, '2.1.0');
  assert.strictEqual(tool.driver.rules.length, Object.keys(LOOKS).length);
  assert.strictEqual(results.length, 2);
  for (const { ruleId, ruleIndex } of results) assert.strictEqual(tool.driver.rules[ruleIndex].id, ruleId);
  const [known] = results.filter(({ suppressions }) => suppressions);
  assert.strictEqual(known.partialFingerprints['raceName/v1'], x.name);
  const [{ physicalLocation }] = known.locations;
  assert.deepStrictEqual('region' in physicalLocation && physicalLocation.region, { startLine: 2, startColumn: 1 });
  assert.deepStrictEqual(known.relatedLocations?.[0].physicalLocation.region, { startLine: 3, startColumn: 1 });
});

const hasSarifClasses = fs.existsSync('/usr/lib/python3/dist-packages/sarif_om');

test('a recording that is not complete, in each output', async () => {
  const { text, report } = await judgeLines(['parse 0 1 async', 'parse 0 2 async', 'exec 1', 'w var 0 x', 'exec 2', 'w var 0 x']);
  const [whole, cut] = [{}, { notComplete: ['the time of 3 s was over before the page was quiet'] }].map((facts) => new Problems(text, { ...NAMES, ...facts }, report));
  const facts = { page: 'page.html', status: 1, files: [], folder: null };
  assert.doesNotMatch(totalsOf(new Listing([whole], null)), /not complete/);
  assert.match(totalsOf(new Listing([cut], null)), /, in a recording that is not complete$/);
  assert.match(totalsOf(new Listing([whole, cut], null)), /, 1 of 2 recordings are not complete$/);
  assert.deepStrictEqual(plainListing(new Listing([whole, cut], null), facts).notComplete, [[], cut.notComplete]);
  assert.strictEqual(sarifOf(new Listing([whole], null), facts).runs[0].invocations, undefined);
  const [invocation] = sarifOf(new Listing([cut], null), facts).runs[0].invocations || [];
  assert.deepStrictEqual([invocation.executionSuccessful, invocation.toolExecutionNotifications[0].message.text], [false, `The recording is not complete: ${cut.notComplete}`]);
});

test('SARIF as the standard has it', { skip: hasSarifClasses ? false : 'python3-sarif-python-om is not installed' }, async () => {
  const one = await run({ more: ['y', 'z'] });
  const [x] = one.list.filter(({ words }) => words.startsWith('"x"'));
  const file = path.join(folder, 'out.sarif');
  const check = (/** @type {unknown} */ log) => {
    writeWhole(file, JSON.stringify(log));
    return spawnSync('/usr/bin/python3', [path.join(__dirname, '..', 'test', 'drivers', 'check_sarif.py'), file], { encoding: 'utf8' });
  };
  const log = sarifOf(new Listing([one], new Known(`${x.name}\n`, 'known')), { page: PAGE, folder: null });
  const { status, stdout } = check(log);
  assert.strictEqual(status, 0, stdout);
  assert.match(stdout, /^\d{2,} objects$/m);
  log.runs[0].results[0].level = 'bad';
  Object.assign(log.runs[0].results[0], { place: 1 });
  assert.match(check(log).stdout, /level: bad is none of .*\n.*place: Result has no such member/);
});

test('two acts of a user fail no build unless it is asked for', async () => {
  const lines = ['parse 0 1 plain', 'parse 0 2 plain', 'parse 0 3 async', 'exec 3', 'on 1', 'on 2', 'fire 1 1 click', 'run 1 0 1', 'w var 0 x', 'close 1', 'fire 2 2 click', 'run 2 0 2', 'w var 0 x', 'close 2'];
  const { text, report } = await judgeLines(lines);
  const problems = new Problems(text, { ...NAMES, dispatches: { 1: { type: 'click', act: 1000 }, 2: { type: 'click', act: 2000 } } }, report);
  const plain = new Listing([problems], new Known('', 'known'));
  const asked = new Listing([problems], new Known('', 'known'), { countsActs: true });
  assert.deepStrictEqual([plain, asked].map((one) => [one.fresh().length, one.failing().length]), [[1, 0], [1, 1]]);
  assert.strictEqual(linesOf(plain)[0], '-- only another input of the user changes the order');
  assert.deepStrictEqual(plainListing(plain, { page: '', status: 0, files: [], folder: null }).problems.map(({ fails }) => fails), [false]);
});

test('the members of the object are those that the document has', async () => {
  const document = fs.readFileSync(path.join(__dirname, '..', '..', 'docs', 'ci.md'), 'utf8');
  const tableOf = (/** @type {string} */ head) => document.slice(document.indexOf(head)).split('\n\n')[0].split('\n').slice(2);
  const membersOf = (/** @type {string} */ head) => tableOf(head).flatMap((row) => row.split('|')[1].split(',').map((name) => name.replace(/[` ]/g, ''))).sort();
  const plain = plainListing(new Listing([await run()], null), { page: '', status: 1, files: [], folder: null });
  assert.deepStrictEqual(Object.keys(plain).sort(), membersOf('| Member | Is |\n|---|---|\n| `races` | 1'));
  assert.deepStrictEqual([...Object.keys(plain.problems[0]), 'replay'].sort(), membersOf('| Member of a problem | Is |')); // `replay` only if it was replayed
});

test('what was left out of the trace is told', async () => {
  const { text, report } = await judgeLines(['parse 0 1 async', 'exec 1']);
  const leftOut = [{ location: 'var 0 steps', accesses: 40000, pairs: 799980000 }];
  const listing = new Listing([new Problems(text, { ...NAMES, leftOut }, report)], null);
  assert.deepStrictEqual(plainListing(listing, { page: '', status: 0, files: [], folder: null }).leftOut, [[{ ...leftOut[0], words: '"steps"' }]]);
});

test('a file is written whole or not at all', () => {
  const file = path.join(folder, 'whole');
  writeWhole(file, 'one\n');
  assert.strictEqual(fs.readFileSync(file, 'utf8'), 'one\n');
  assert.throws(() => writeWhole(path.join(folder, 'no', 'such', 'folder'), 'x'), WriteFault);
  assert.deepStrictEqual(fs.readdirSync(folder).filter((name) => name.startsWith('.')), []);
});

test('what came of a race in the other order stands in the object and in SARIF', async () => {
  const listing = new Listing([await run()], null);
  const [problem] = listing.problems;
  const words = 'turned: differs: error in the other order alone: TypeError';
  const sentence = 'in the other order an uncaught error: TypeError';
  listing.setVerdicts(0, [{ race: problem.races[0] + 1, verdict: 'turned', kind: 'differs', effect: 'an uncaught error', ownEffect: 'an uncaught error', sentence, words }]);
  const plain = plainListing(listing, { page: 'page', status: 1, files: [], folder: null });
  const [told, ...others] = plain.problems.filter(({ replay }) => replay);
  assert.deepStrictEqual(told.replay, { race: problem.races[0] + 1, verdict: 'turned', differs: true, differsByItself: true, effect: 'an uncaught error', ownEffect: 'an uncaught error', from: undefined, sentence, words });
  assert.deepStrictEqual([told.name, others], [problem.name, []]);
  const [result] = sarifOf(listing, { page: PAGE, folder: null }).runs[0].results.filter(({ properties }) => properties?.replay);
  assert.match(result.message.text, / Replayed: in the other order an uncaught error: TypeError\.$/);
  assert.deepStrictEqual(result.properties?.replay, { verdict: 'turned', differs: true, differsByItself: true, effect: 'an uncaught error' });
});
