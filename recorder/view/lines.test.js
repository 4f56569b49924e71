'use strict';
// The view has the problems of the list: the same ones, in one order, in the same sections, with the same counts; and each race of the report once.

const assert = require('node:assert');
const { test } = require('node:test');
const { Known } = require('../list/known.js');
const { Listing } = require('../list/listing.js');
const { linesOf } = require('../list/outputs.js');
const { Problems } = require('../list/problems.js');
const { judgeText, tracesWithRaces } = require('../test/list-support.js');
const { arranged, entriesOf } = require('./lines.js');
const { Model } = require('./model.js');

/** @typedef {{part: string, name: string, races: number}} Line */

const TRACES = tracesWithRaces();

/**
 * What the list prints: its lines, the names of what is known, and the counts at its top.
 * @param {Listing} listing
 */
function printed(listing) {
  const text = linesOf(listing);
  let part = listing.told().length ? listing.partOf(listing.told()[0].line) : ''; // a list of one section has no line for it
  /** @type {Line[]} */
  const lines = [];
  for (const line of text) {
    part = /^-- (.*)$/.exec(line)?.[1] ?? part;
    const [, name, more = '0', all] = /^ {4}(\w+) \(for races\.known\)(?:, and (\d+) more races?|; in all, \d+ problems: (\d+) races)?$/.exec(line) || [];
    if (name) lines.push({ part, name, races: all ? Number(all) : 1 + Number(more) });
  }
  return { lines, known: text.flatMap((line) => /^ {2}(\w+) /.exec(line)?.[1] ?? []), counts: /^\d+ problems (?:in \d+ entr\w+ )?\(/.test(text[0]) ? text.slice(0, text.findIndex((line) => line.endsWith(')')) + 1).map((line) => line.trim()).join(' ') : '' };
}

/**
 * What the view shows.
 * @param {Pick<import('./types').ViewModel, 'listed'|'problems'|'groups'>} model
 */
function shown({ listed, problems, groups }) {
  const racesOf = (/** @type {number[]} */ some) => groups.reduce((sum, { problem, size }) => sum + (some.includes(problem) ? size : 0), 0);
  const all = listed.map(({ part, isKnown, problems: some }) => ({ isKnown, line: { part, name: problems[some[0]].name, races: racesOf(some) } }));
  return { lines: all.filter(({ isKnown }) => !isKnown).map(({ line }) => line), known: all.filter(({ isKnown }) => isKnown).map(({ line }) => line) };
}

/**
 * Compares a view with the list.
 * @param {Listing} listing
 * @param {ReturnType<Model['build']>} model
 */
function check(listing, model) {
  const { report } = listing.runs[0];
  const { lines, known, counts } = printed(listing);
  const view = shown(model);
  assert.deepStrictEqual(view.lines, lines);
  assert.deepStrictEqual(view.known.map(({ name }) => name), known);
  assert.strictEqual(entriesOf(model.totals), lines.length);
  const parts = [...new Set(lines.map(({ part }) => part))].map((part) => `${part}: ${lines.filter((line) => line.part === part).length}`);
  if (counts) assert.strictEqual(counts, `${model.totals.problems} problems${model.totals.entries === undefined ? '' : ` in ${lines.length} entr${lines.length === 1 ? 'y' : 'ies'}`} (${parts.join('; ')})`);
  assert.strictEqual([...view.lines, ...view.known].reduce((sum, { races }) => sum + races, 0), report.races.length);
  assert.ok(model.races.length < 100 ? model.races.every(([, , , , , , , , , problem]) => model.problems[problem]) : true);
}

/** @param {typeof TRACES[0]} trace */
async function judged({ text, names }) {
  const problems = new Problems(text, names, await judgeText(text));
  const model = (/** @type {Listing} */ listing) => new Model(problems.report, names, problems.words.actions).build([], listing);
  return { problems, model };
}

test('the view has the lines, the order, the sections and the counts of the list', async () => {
  let many = 0;
  let covered = 0;
  for (const trace of TRACES) {
    const { problems, model } = await judged(trace);
    const all = new Listing([problems], null);
    const some = all.problems.filter((_, k) => k % 3 === 0).map(({ name }) => name);
    for (const listing of [all, new Listing([problems], new Known(some.join('\n'), 'races.known'))]) check(listing, model(listing));
    many += Number(all.told().some(({ others }) => others.length));
    covered += Number(problems.list.some(({ isTold }) => isTold)) + Number(problems.list.some(({ worst }) => worst !== undefined));
  }
  assert.ok(many >= 2 && covered >= 2, `${many} with several problems in a line, ${covered} with covered ones`);
});

test('a line that has the pattern of another race begins with that race', async () => {
  const { problems, model } = await judged(TRACES[TRACES.length - 1]);
  const built = model(new Listing([problems], null));
  assert.strictEqual(built.problems[0].look, 'late handler');
  assert.deepStrictEqual([built.problems[0].first, built.groups[0].race], [2, 2]);
  assert.match(built.races[1][3], /^slot /);
});

test('after replays the view has the order of the list again', async () => {
  let moved = 0;
  for (const trace of TRACES) {
    const { problems, model } = await judged(trace);
    const listing = new Listing([problems], null);
    const built = model(listing);
    const races = listing.told().map(({ line }, k) => ({ race: line.first + 1, verdict: 'turned', words: '', effect: k % 2 ? 'another content' : '', differences: k % 2 ? [{ kind: 'text' }] : [] }));
    const before = listing.inOrder().map(({ part, problems: [{ name }] }) => `${part} ${name}`);
    listing.setVerdicts(0, races);
    moved += Number(listing.inOrder().some(({ part, problems: [{ name }] }, k) => before[k] !== `${part} ${name}`));
    const shownThen = arranged(built, listing);
    check(listing, shownThen);
    for (const { line, others } of listing.told()) assert.deepStrictEqual(shownThen.problems.find(({ name }) => name === line.name)?.details, listing.entryOf(line, others).details);
  }
  assert.ok(moved > 2, `${moved} lists have another order`);
});
