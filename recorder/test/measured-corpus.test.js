'use strict';
// orders.js and timeline.js over the pages of the evaluation, without a browser: which pages are left, and the tables of their lines.

const assert = require('node:assert');
const fs = require('node:fs');
const path = require('node:path');
const { test } = require('node:test');
const { temporaryFolder } = require('./cleanup.js');
const { readCorpus } = require('./corpus.js');
const { takeCorpus, pageOfCorpus, measureCorpus, entriesLeft, commitsOf } = require('./measured-corpus.js');
const orders = require('./orders-tables.js');
const timeline = require('./timeline-tables.js');

/** @typedef {import('./orders-tables.js').OrdersLine} OrdersLine */

const LIMIT = { timeout: 60000 };
/** A tool whose first page ends, whose second one fails, and whose others are not done in time. */
const TOOL = `const { page } = { page: process.argv[process.argv.indexOf('--only') + 1] };
const count = require('node:fs').readdirSync(process.argv[2]).length;
require('node:fs').writeFileSync(process.argv[2] + '/' + count, page);
if (count === 0) console.log(JSON.stringify({ found: process.argv[3] }));
else if (count === 1) throw new Error('no such thing');
else for (;;);`;

/** @type {OrdersLine} */
const LINE = {
  name: 'p-doc, html/a|b.html', times: 3, runs: 3, failures: [], isCut: false, orderedOnce: 1000, listedBoth: 2, orderedBoth: 0, listedOnce: 1, leftOut: 4,
  kinds: { broken: 0, undecided: 0, lacking: 0 }, reasons: [], actions: { reversed: 5, looked: 5, broken: 0, reasons: [] },
};
const FAILED = /** @type {OrdersLine & {failure: string}} */ (/** @type {unknown} */ ({ name: 'q-doc, c.html', failure: 'not done after 1 minutes' }));

test('the options of a measurement are taken out of the words of a tool', () => {
  const left = ['--times', '3', '--corpus', 'x', '--side-by-side', '2', 'p-doc', '--again', '--pause', 'busy'];
  assert.deepStrictEqual(takeCorpus(left), { folder: path.resolve('x'), lanes: 2, minutes: 30, isAgain: true, pause: 'busy', only: null });
  assert.deepStrictEqual(left, ['--times', '3', 'p-doc']);
  assert.strictEqual(takeCorpus(left), null);
});

test('a page is recorded as the evaluation records it', () => {
  const [{ page }] = readCorpus([]);
  const over = { folder: temporaryFolder('measured'), lanes: 1, minutes: 1, isAgain: false, pause: null, only: page };
  const own = pageOfCorpus(over);
  assert.deepStrictEqual([own.page, own.words], [path.join(over.folder, 'root', page), ['--clicks', '5', '--seed', '1', '--slow', '400', '--root', path.join(over.folder, 'root')]]);
  assert.throws(() => pageOfCorpus({ ...over, only: '/no/such/page.html' }), /no page of corpus.json/);
  assert.strictEqual(new Set(readCorpus([]).map((entry) => pageOfCorpus({ ...over, only: entry.page }).file)).size, readCorpus([]).length);
});

test('pages are left that have no line, or one of fewer recordings, and with --again those that failed', () => {
  const entries = ['a', 'b', 'c', 'd'].map((page) => ({ page }));
  const line = (/** @type {string} */ page, /** @type {object} */ more) => ({ page, name: page, commits: [], seconds: 1, times: 3, ...more });
  const lines = [line('a', {}), line('b', { times: 2 }), line('c', { failure: 'x' })];
  const left = (/** @type {boolean} */ isAgain) => entriesLeft(entries, lines, ({ times }) => times >= 3, isAgain).map(({ page }) => page);
  assert.deepStrictEqual([left(false), left(true)], [['b', 'd'], ['b', 'c', 'd']]);
});

test('a page that fails or takes too long is a line, and the others go on; another call goes on with what is left', LIMIT, async () => {
  const folder = temporaryFolder('measured');
  const seen = path.join(folder, 'seen');
  fs.mkdirSync(seen);
  fs.writeFileSync(path.join(folder, 'tool.js'), TOOL);
  const only = readCorpus([]).filter((one, k, all) => all.filter(({ package: name }) => name === one.package).length === 3)[0].package;
  const over = { folder, lanes: 1, minutes: 1 / 60, isAgain: false, pause: null, only: null };
  /** @type {import('./measured-corpus.js').Measuring<{found: string}>} */
  const measuring = { tool: path.join(folder, 'tool.js'), file: 'lines.jsonl', words: [seen, 'it'], isEnough: () => true, goesOn: true, inWords: ({ found }) => found };
  const lines = await measureCorpus(over, [only], measuring);
  const [first, second, third] = [0, 1, 2].map((k) => lines.find(({ page }) => page === fs.readFileSync(path.join(seen, String(k)), 'utf8')));
  assert.deepStrictEqual([first?.found, first?.failure, second?.failure, third?.failure], ['it', undefined, 'status 1: Error: no such thing', 'not done after 0.016666666666666666 minutes']);
  assert.deepStrictEqual(await measureCorpus(over, [only], measuring), lines);
  assert.strictEqual(fs.readdirSync(seen).length, 3);
  assert.match(commitsOf(lines), /^, of recordings made at commit [0-9a-f]{8}$/);
  fs.writeFileSync(path.join(folder, 'lines.jsonl'), lines.map((line) => `${JSON.stringify({ ...line, commits: ['earlier'] })}\n`).join(''));
  const again = await measureCorpus({ ...over, isAgain: true }, [only], measuring);
  assert.deepStrictEqual(again.map(({ commits }) => commits.length).sort(), [1, 2, 2]);
});

test('orders: sums of all pages, and a row for a page that has something to explain', () => {
  const broken = { ...LINE, name: 'r-doc, d.html', orderedBoth: 2, isCut: true, kinds: { broken: 1, undecided: 0, lacking: 1 } };
  const quiet = orders.sumTables([LINE, FAILED]).split('\n');
  assert.ok(quiet.includes('| pairs | 1,003 | 1 |') && quiet.includes('| Of 1 pages | All | Pages with some |'));
  assert.deepStrictEqual(quiet.slice(-3), ['No page has a pair or a step that another run breaks, or that is not decided.', '', 'Failed: q-doc, c.html (not done after 1 minutes).']);
  const text = orders.sumTables([LINE, broken]);
  assert.match(text, /^\| of these by a rule that another run breaks \| 1 \| 1 \|$/m);
  assert.match(text, /^\| r-doc, d\.html \| 3 \| 1,005 \| 2 \| 1 \| 0 \| 0 \|$/m);
  assert.doesNotMatch(text, /a&#124;b/);
  assert.match(text, /^Only the first pairs were compared: r-doc, d\.html\.$/m);
  assert.deepStrictEqual([LINE, FAILED, broken].map(orders.isBroken), [false, false, true]);
  assert.strictEqual(orders.rowOf(broken)[2], '1005 (cut)');
});

test('orders: a line has the pairs in numbers, by what came of them', () => {
  const compared = { name: 'n', runs: [], failures: ['run 1: x'], orderedOnce: [], listedBoth: [], orderedBoth: [], listedOnce: [], several: 1, leftOut: 2, isCut: false };
  const reasons = [{ kind: 'broken', text: 'a', count: 2, words: ['w'] }, { kind: 'lacking', text: 'b', count: 1 }];
  const line = orders.lineOf(/** @type {any} */ ({ ...compared, reasons, actions: { reversed: 3, looked: 3, reasons } }), 10);
  assert.deepStrictEqual([line.kinds, line.leftOut, line.times, line.actions.broken, line.reasons[1].words], [{ broken: 2, undecided: 0, lacking: 1 }, 3, 10, 1, []]);
});

test('timeline: the kinds of all pages, and where a call is in no action', () => {
  const missing = Array.from({ length: 2 }, () => ({ kind: 'TimerFire', place: 'f at a.js:1' }));
  const kinds = new Map([['TimerFire', { seen: 3, missing }], ['EvaluateScript', { seen: 1, missing: [] }]]);
  const line = timeline.lineOf({ name: 'p-doc, a.html', kinds, missing, losses: ['frames: 1'] });
  assert.deepStrictEqual(line.missing, [{ kind: 'TimerFire', place: 'f at a.js:1', count: 2 }]);
  assert.strictEqual(timeline.inWords(line), 'TimerFire 1 of 3; EvaluateScript 1 of 1');
  const failed = /** @type {any} */ ({ name: 'q', failure: 'no page' });
  const others = Array.from({ length: 7 }, (_, k) => ({ ...line, name: `${k}` }));
  const lines = timeline.sumTables([line, ...others, failed]).split('\n');
  assert.strictEqual(lines[0], 'Of 8 pages; with a call without its action: 8.');
  assert.ok(lines.includes('| TimerFire | 24 | 16 | p-doc, a.html 2; 0 2; 1 2; 2 2; 3 2; 4 2 and 2 more |') && lines.includes('| EvaluateScript | 8 | 0 |  |'), lines.join('\n'));
  assert.ok(lines.includes('| p-doc, a.html | TimerFire | f at a.js:1 | 2 |') && lines.includes('Failed: q (no page).'));
});
