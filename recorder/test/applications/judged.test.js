'use strict';
// Lists of recordings as lines, and the problems that are drawn of them. No application is started.

const assert = require('node:assert');
const fs = require('node:fs');
const path = require('node:path');
const { test } = require('node:test');
const { temporaryFolder } = require('../cleanup.js');
const { draw, faultsOf, judgementText } = require('./judged.js');
const { linesOf, appendLine, textOf } = require('./lines.js');
const { listOf, problemsOf } = require('./lists.js');
const { bugsIn, bugTable } = require('./confirmed.js');
const { documentOf, goalsOf } = require('./tables.js');
const { medianOf } = require('./times.js');

const REPORT = 'report 1\nactions 12\naccesses 30\npairs 3\nraces 2\ngroups 1\nend\n';
const listed = (/** @type {string} */ name, /** @type {string} */ part, hasLine = true) => (
  { name, look: 'other', part, words: `words of ${name}`, summary: `summary of ${name}`, hasLine, races: [{ race: 1 }] });
const PROBLEMS = [listed('aa', 'other'), listed('bb', 'other', false), listed('cc', 'only another input of the user changes the order')];

/** A folder as er_page leaves it. */
function recorded() {
  const folder = temporaryFolder('applications');
  fs.mkdirSync(path.join(folder, 'x.races'));
  fs.writeFileSync(path.join(folder, 'x.races', 'page.report'), REPORT);
  return folder;
}

/** @returns {import('./types').DoneLine} */
function lineOf() {
  const list = listOf(recorded(), JSON.stringify({ problems: PROBLEMS }));
  assert.ok(list);
  const run = { status: 1, seconds: 2, errors: [], notRecorded: [], notDone: ['not done: step 1'], figures: list.figures };
  return {
    application: 'app', version: '1-1', login: 'form', began: '2026-01-01T00:00:00.000Z', seconds: 3,
    machine: { chromium: 'Chromium 1', processors: 4, loads: [1, 2] },
    runs: [run, run], loads: { without: [1, 2, 3], with: [2, null, 4] }, problems: problemsOf([list, list], null),
  };
}

test('the figures and the lines of a list; none of a recording without one', () => {
  const { runs: [{ figures }], problems } = lineOf();
  assert.deepStrictEqual(figures, { actions: 12, accesses: 30, races: 2, groups: 1, lines: 2, sections: { other: 1, 'only another input of the user changes the order': 1 } });
  assert.deepStrictEqual(problems.map(({ name, place, isAgain }) => [name, place, isAgain]), [['aa', 1, true], ['cc', 2, true]]);
  assert.strictEqual(listOf(recorded(), ''), null);
});

test('a later line takes the place of an earlier one, and a cut one does not count', () => {
  const file = path.join(temporaryFolder('lines'), 'lines');
  appendLine(file, { application: 'b', version: '1', began: '', seconds: 1, failure: 'x' });
  fs.appendFileSync(file, '{"application":"a"');
  appendLine(file, { application: 'b', version: '1', began: '', seconds: 2, failure: 'y' });
  assert.deepStrictEqual(linesOf(file).map(({ application, failure }) => [application, failure]), [['b', 'y']]);
  const newer = path.join(temporaryFolder('lines'), 'newer');
  fs.writeFileSync(newer, textOf([{ application: 'c', version: '1', began: '', seconds: 1, failure: 'z' }]));
  assert.deepStrictEqual(linesOf(file, newer, path.join(newer, 'none')).map(({ failure }) => failure), ['y', 'z'], 'an application that is not recorded again keeps its line');
});

test('acts against each other are not drawn, and what was judged stays', () => {
  const none = { seed: 1, count: 9, problems: [] };
  const drawn = draw([lineOf()], none);
  assert.deepStrictEqual(drawn.problems.map(({ application, name }) => [application, name]), [['app', 'aa']]);
  drawn.problems[0].judgement = 'impossible';
  assert.deepStrictEqual(faultsOf(drawn), ['app, aa: why is not said', 'app, aa: which order is lost is not said']);
  Object.assign(drawn.problems[0], { lost: 'an order', why: 'a reason' });
  assert.deepStrictEqual(draw([lineOf()], drawn), drawn);
  assert.match(judgementText(drawn), /\| cannot happen in a browser \| 1 of 1 \(100 %\) \|/);
});

test('the document has a row of each application', () => {
  const text = documentOf([lineOf(), { application: 'other', version: '', began: '', seconds: 0, failure: 'not installed: x' }]);
  assert.match(text, /\| app \| 1-1 \| form \| 2\.0, 2\.0 \| 1\.0 \| 12 \| 30 \| 2 \| 2 \|/);
  assert.match(text, /^- other: not installed: x$/m);
  assert.match(text, /^- app, recording 1: not done: step 1$/m);
  assert.strictEqual(medianOf([null]), null);
});

const CLICK = 'A click at a[name=delete_link] is lost until its handler is registered at 1:257';
/**
 * The lists of two recordings of an application.
 * @param {[part: string, summary: string][][]} lists
 */
const ofShaarli = (...lists) => bugsIn('shaarli', lists.map((list) => ({ lines: list.map(([part, summary]) => ({ part, summary })) })));

test('a confirmed bug is in the section of its first line, by the number of this section in the list', () => {
  const { 'shaarli-delete': [first, third] } = ofShaarli([['may throw', 'x'], ['may throw', CLICK], ['other', CLICK]], [['may throw', 'x'], ['other', 'y'], ['loses what a user does', CLICK]]);
  assert.deepStrictEqual(first, { summary: CLICK, place: 2, lines: 3, part: 'may throw', section: 1, sections: 2 });
  assert.deepStrictEqual([third?.place, third?.section, third?.sections], [3, 3, 3]);
  assert.deepStrictEqual(ofShaarli([['may throw', 'x']]), { 'shaarli-delete': [null] });
  assert.deepStrictEqual(bugsIn('shaarli', [null]), { 'shaarli-delete': [null] });
  assert.deepStrictEqual(bugsIn('fossil', []), {});
});

test('the table of confirmed bugs has both recordings, once if they say one thing', () => {
  const rowOf = (/** @type {import('./types').DoneLine['bugs']} */ bugs) => bugTable([{ ...lineOf(), application: 'shaarli', bugs }]).split('\n').filter((line) => line.startsWith('| shaarli-delete'))[0];
  assert.match(rowOf(ofShaarli([['may throw', CLICK]], [['may throw', CLICK]])), / at 1:257 \| 1 of 1 \| may throw: 1 of 1 \|$/);
  assert.match(rowOf(ofShaarli([['other', 'x']], [['other', 'x'], ['may throw', CLICK]])), / at 1:257 \| none; 2 of 2 \| none; may throw: 2 of 2 \|$/);
  assert.match(rowOf(undefined), /\| none \| {2}\| {2}\|$/);
});

test('the goals, and by how much they are not reached', () => {
  const [run] = lineOf().runs;
  const late = { ...run, seconds: 70, figures: run.figures && { ...run.figures, accesses: 31000 } };
  const large = { ...lineOf(), application: 'shaarli', runs: [late, late], bugs: ofShaarli([['may throw', CLICK]], [['other', 'x'], ['may throw', CLICK]]) };
  const { applications: text } = goalsOf([lineOf(), large, { application: 'other', version: '', began: '', seconds: 0, failure: 'x' }]);
  assert.match(text, /Reached, of 2 applications, each recorded twice, on a machine at a load of 1\.0 to 2\.0 /);
  assert.match(text, /its last line \| yes: 4 of 4 \|/);
  assert.match(text, /of its list \| no: 1 of \d+ in the first recordings \(.*mediawiki-arrow-key: no line.*\), 0 of \d+ in the second recordings \(.*shaarli-delete: section 2\) \|/);
  assert.match(text, /2\.5 times as long \| yes: 2 of 2; 1\.0 times \(median\), 1\.0 at most \(\w+\) \|/);
  assert.match(text, /at most 60 seconds \| no: shaarli took 70 and 70 seconds\. Its recording has 31,000 accesses and 2 races \|/);
});
