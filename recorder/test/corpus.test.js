'use strict';
// The evaluation without a browser: what its calls print, what its lines come to, and its documents.

const assert = require('node:assert');
const { spawnSync } = require('node:child_process');
const fs = require('node:fs');
const path = require('node:path');
const { test } = require('node:test');
const { temporaryFolder } = require('./cleanup.js');
const { entriesLeft, folderOf, recordingsIn } = require('./corpus.js');
const { readSaid, faultOf } = require('./corpus/calls.js');
const { judgementTexts } = require('./corpus/draw.js');
const { figuresOf, replaysOf, sumOf, troublesOf, worstOf, loadsOf, whyOf, median } = require('./corpus/figures.js');
const { readLines, appendLine } = require('./corpus/lines.js');
const { kindOf: kindOfLocation, replaysOf: readReplays } = require('./corpus/measure.js');
const { LINE, EMPTY, FAILED, FACTS, RACES } = require('./corpus/sample-lines.js');
const { tablesOf, withTexts, told } = require('./corpus/tables.js');

const DOCUMENTS = ['evaluation.md', 'evaluation-tables.md'].map((name) => path.join(__dirname, '..', '..', 'docs', name));

// ---- lines

test('lines are appended, a later one of a page counts, and one that was cut off does not', () => {
  const file = path.join(temporaryFolder('corpus'), 'pages.jsonl');
  assert.deepStrictEqual(readLines(file), []);
  appendLine(file, { page: 'a', failure: 'x' });
  fs.appendFileSync(file, '{"page":"b","fai');
  appendLine(file, { page: 'a', runs: [] });
  appendLine(file, { page: 'b', runs: [] });
  assert.deepStrictEqual(readLines(file), [{ page: 'a', runs: [] }, { page: 'b', runs: [] }]);
});

test('what a recording says is read', () => {
  const said = 'er_record: 5 actions in 1.0 s\n  not done: click:x\n  not recorded: frames: 2\n  load of the page: 0.25 s\n  error: E (a.js:1)\n';
  assert.deepStrictEqual(readSaid(said), { load: 0.25, errors: ['E (a.js:1)'], notRecorded: ['frames: 2'], notDone: [': click:x'] });
  assert.strictEqual(readSaid('').load, null);
  assert.strictEqual(faultOf('er_page: 5 actions in 1.0 s\nx\ner_page: stopped\ny\n', 'er_page'), 'er_page: stopped');
  assert.deepStrictEqual(['a\ner_record: no page\nb', 'a\nTypeError: x\n  at b', 'a\nb\n'].map((text) => faultOf(text)), ['er_record: no page', 'TypeError: x', 'b']);
});

test('what a command takes is told without what takes its time', () => {
  const { stdout } = spawnSync(path.join(__dirname, 'corpus', 'costs.py'), ['cat', DOCUMENTS[0]], { encoding: 'utf8' });
  const [seconds, kilobytes] = stdout.split(' ').map(Number);
  assert.ok(seconds >= 0 && kilobytes > 0 && kilobytes < 8192, stdout); // Python alone has more
});

test('what a race is at', () => {
  const names = { objects: { 3000001: { scope: 'f' }, 3000002: { made: 'array' } } };
  const kinds = ['elem 0 menu', 'slot 5 click', 'var 0 count', 'var 1000005 value', 'var 1000005 class', 'var 2000001 shared', 'var 3000001 n', 'var 3000002 length'];
  assert.deepStrictEqual(kinds.map((location) => kindOfLocation(location, names)), ['element', 'handler', 'global', 'field', 'tree', 'module', 'closure', 'object']);
});

test('replays are read with the names of their problems', () => {
  const folder = temporaryFolder('corpus');
  assert.deepStrictEqual(readReplays(folder), []);
  fs.mkdirSync(path.join(folder, 'page.races'));
  fs.writeFileSync(path.join(folder, 'listing.json'), JSON.stringify({ problems: [{ name: 'n1', races: [{ race: 3 }, { race: 4 }] }] }));
  const race = (/** @type {number} */ number, /** @type {object} */ more) => ({ race: number, verdict: 'turned', isListed: true, differences: [], unsteady: [], byDelay: [], words: 'w', ...more });
  const races = [race(4, { effect: 'a lost act', differences: [{}] }), race(5, { unsteady: [{ isSeen: true }] }), race(3, { verdict: 'not turned', why: 'so', isListed: undefined, differences: undefined })];
  fs.writeFileSync(path.join(folder, 'page.races', 'page.replay.json'), JSON.stringify({ races }));
  assert.deepStrictEqual(readReplays(folder), [
    { name: 'n1', verdict: 'differs', effect: 'a lost act', isListed: true, isApart: false, words: 'w' },
    { name: '', verdict: 'same', isListed: true, isApart: true, words: 'w' },
    { name: 'n1', verdict: 'not turned', why: 'so', isListed: false, isApart: false, words: 'w' },
  ]);
});

test('a page is recorded anew only after its line, and not once more after recordings that came since', () => {
  const options = { folder: temporaryFolder('corpus'), recordsFailed: true, recordsBusy: false };
  const file = path.join(options.folder, 'pages.jsonl');
  const entries = ['a', 'b', 'c', 'd'].map((name) => ({ page: name }));
  const began = Date.parse(FACTS.began);
  const recordingOf = (/** @type {{page: string}} */ entry) => recordingsIn(folderOf(entry, options));
  entries.forEach((entry, k) => {
    fs.mkdirSync(folderOf(entry, options), { recursive: true });
    fs.writeFileSync(recordingOf(entry), '{}');
    fs.utimesSync(recordingOf(entry), 0, began / 1000 + [5, 10, 5, 5][k]); // a line is written 9 s after its start
  });
  [0, 1].forEach((k) => appendLine(file, { ...FAILED, ...entries[k] }));
  appendLine(file, { ...LINE, ...entries[2] });
  const left = () => entriesLeft(entries, file, options).map((entry) => entry.page);
  const kept = () => entries.filter((entry) => fs.existsSync(recordingOf(entry))).map((entry) => entry.page);
  for (let k = 0; k < 2; k++) assert.deepStrictEqual([left(), kept()], [['a', 'b', 'd'], ['b', 'c', 'd']]);
});

test('a line has the errors that come with the recorder alone, and why a recording has nothing', () => {
  assert.deepStrictEqual(LINE.runs.map(({ alone }) => alone), [['F (a.js:2)'], []]);
  assert.deepStrictEqual([LINE, EMPTY].map(({ runs }) => runs[0].nothing), ['', 'status 4: no page']);
  assert.deepStrictEqual([FAILED.failure, FAILED.page], ['no room', '/usr/share/doc/p-doc/c.html']);
});

// ---- summing

test('a page has its figures, and one that has nothing has none', () => {
  const figures = figuresOf(LINE);
  assert.ok(figures);
  const { objects, again, loads, replay, races, lines } = figures;
  assert.deepStrictEqual({ objects, again, races, lines }, { objects: 1, again: 1, races: 4, lines: 1 });
  assert.deepStrictEqual(loads, { without: 0.2, with: 0.4, times: 2 });
  assert.deepStrictEqual(replay, { tried: 3, turned: 2, listed: 2, differ: 1, same: 1, apart: 1, not: 1, effects: { 'a lost act': 1 }, whys: { 'both come from one act of the user': 1 } });
  assert.deepStrictEqual([figuresOf(EMPTY), figuresOf(FAILED)], [null, null]);
});

test('sums, medians and reasons', () => {
  assert.deepStrictEqual([median([3, 1, 2]), median([4, 1, 2, 3]), median([])], [2, 2.5, null]);
  const values = [1, 5, null, 3].map((value, k) => ({ page: `p${k}`, value }));
  assert.deepStrictEqual(sumOf(values), { median: 3, mean: 3, most: 5, page: 'p1', sum: 9, pages: 3 });
  assert.strictEqual(sumOf([{ page: 'a', value: null }]), null);
  assert.strictEqual(loadsOf({ without: [0.1, null], with: [0.1, 0.1] }), null);
  assert.strictEqual(loadsOf({ without: [], with: [] }), null);
  assert.deepStrictEqual(['x: it was not met again', 'something else'].map(whyOf), ['what was held back was not met again', 'other']);
  assert.strictEqual(replaysOf({ races: [] }).tried, 0);
});

test('the worst come first', () => {
  const worse = { ...LINE, page: '/b.html', replay: { ...LINE.replay, races: [{ ...RACES[0], name: 'n9', effect: 'an uncaught error' }] } };
  assert.deepStrictEqual(worstOf([LINE, FAILED, worse], 5).map(({ page: name, effect }) => [name, effect]), [['/b.html', 'an uncaught error'], [LINE.page, 'a lost act']]);
  assert.strictEqual(worstOf([LINE, worse], 1).length, 1);
});

test('troubles are told with their pages', () => {
  const { failed, nothing, alone, limits } = troublesOf([LINE, EMPTY, FAILED]);
  assert.deepStrictEqual(failed, [{ page: FAILED.page, text: 'no room' }]);
  assert.deepStrictEqual(nothing, [{ page: EMPTY.page, run: 1, text: 'status 4: no page' }]);
  assert.deepStrictEqual(alone, [{ page: LINE.page, run: 1, text: 'F (a.js:2)' }]);
  assert.deepStrictEqual(limits.map(({ page: name, run }) => [name, run]), [[LINE.page, 2], [EMPTY.page, 2]]);
});

test('the tables add up, and take nothing of a page for mark-up', () => {
  const texts = tablesOf([LINE, EMPTY, FAILED]);
  assert.match(texts.sums, /^\| races \| 4 \| 4\.0 \| 4 \(p-doc, p-doc\/a\.html\) \| 4 \|$/m);
  assert.match(texts.packages, /^\| sphinx \| 1 \| 1 \| 4 \| 2 \| 3 \| 2 \| 1 \|$/m);
  assert.match(texts.looks, /^\| `counter` \| 1 \| 50 % \| 1 \|$/m);
  assert.match(texts.replays, /^\| by its worst effect: a lost act \| 1 \| 50 % \|$/m);
  assert.match(texts.pages, /^\| p-doc, p-doc\/a\.html \| 10 \| 20 \| 4 \| 3 \| 2 \| 1 \| 1 of 2 \| 2 of 3, 1 \| 0\.20, 0\.40 \| 0\.50, 12 \|$/m);
  assert.match(texts.recorded, /^1 pages of 1 packages, .* at a load of 1\.0 to 2\.0\. Loads were timed for 1 of 1\. With/);
  const busy = tablesOf([{ ...LINE, machine: { ...FACTS.machine, loads: [3, 6] } }]);
  assert.match(busy.recorded, /\*\*With other work on the machine: 1 of 1;/);
  assert.ok(busy.recorded.includes('Loads were timed for 1 of 1.') && busy.sums.includes('load with'), busy.recorded);
  const hurried = tablesOf([{ ...LINE, loads: { ...LINE.loads, idle: 0.05 } }]);
  assert.ok(!hurried.sums.includes('load with') && hurried.pages.includes('| 2 of 3, 1 |  | 0.50, 12 |'), hurried.pages);
  assert.strictEqual(told('a|b`<i>*\n'), 'a&#124;b&#96;&#60;i&#62;&#42;&#92;u{a}');
  assert.throws(() => tablesOf([FAILED]), /no page was recorded/);
});

test('the documents take them between their marks, and nothing else of them changes', () => {
  const documents = DOCUMENTS.map((one) => fs.readFileSync(one, 'utf8'));
  const texts = { ...tablesOf([LINE]), ...judgementTexts({ problems: [], seed: 1 }) };
  const renewed = withTexts(documents, texts);
  Object.values(texts).forEach((one) => assert.ok(renewed.some((text) => text.includes(`\n\n${one}\n\n`)), one));
  const without = (/** @type {string} */ text) => text.replace(/(<!-- (\w+): begin -->)[^]*?(<!-- \2: end -->)/g, '$1$3');
  assert.deepStrictEqual(renewed.map(without), documents.map(without));
  assert.deepStrictEqual(withTexts(renewed, texts), renewed);
  assert.throws(() => withTexts(['none', 'none'], { sums: '' }), /no marks/);
});

test('a document that has no marks is told in a line, and one that is named twice is written once', () => {
  const folder = temporaryFolder('corpus');
  appendLine(path.join(folder, 'pages.jsonl'), LINE);
  const documents = DOCUMENTS.map((one) => path.join(folder, path.basename(one)));
  DOCUMENTS.forEach((one, k) => fs.copyFileSync(one, documents[k]));
  const evaluate = (/** @type {string} */ into) => spawnSync(process.execPath, [path.join(__dirname, 'corpus', 'evaluate.js'), '--into', into, folder], { encoding: 'utf8' });
  const { status, stderr } = evaluate(documents[0]);
  assert.strictEqual(status, 2, stderr);
  assert.match(stderr, /^evaluate\.js: no marks in the document: .*\n$/);
  assert.strictEqual(fs.readFileSync(documents[0], 'utf8'), fs.readFileSync(DOCUMENTS[0], 'utf8'));
  assert.strictEqual(evaluate([documents[0], ...documents].join(',')).stderr, '');
  assert.match(fs.readFileSync(documents[0], 'utf8'), /^1 pages of 1 packages/m);
});
