'use strict';
// Lines of an evaluation for its tests: of a page that was recorded, of one whose recording has nothing, and of one that failed.

const { lineOf, failedLine } = require('./page-line.js');

const ENTRY = { kind: 'sphinx', package: 'p-doc', version: '1', page: '/usr/share/doc/p-doc/a.html' };
const FACTS = { began: '2026-01-02T03:04:05.000Z', seconds: 9, machine: { chromium: 'Chromium 1', processors: 4, sideBySide: 1, loads: [1, 2] } };
/**
 * A recording with its errors, and with those of the load without the recorder.
 * @param {string[]} errors
 * @param {string[]} plain
 * @returns {import('./types').RecordedBoth}
 */
const call = (errors, plain) => {
  const ended = { status: 0, seconds: 1, notRecorded: [], notDone: [] };
  return { ...ended, load: 0.2, errors, plain: { ...ended, load: 0.1, errors: plain } };
};
const FIGURES = { actions: 10, accesses: 20, pairs: 9, races: 4, groups: 3, problems: 2, lines: 1, looks: { other: 1, counter: 1 }, kinds: { object: 1, global: 1 }, leftOut: 0 };
const PROBLEMS = [
  { name: 'n1', look: 'other', kind: 'object', words: 'one | <b>', race: 1, isAgain: true },
  { name: 'n2', look: 'counter', kind: 'global', words: 'two', race: 2, isAgain: false },
];
const RACES = [
  { name: 'n1', verdict: 'differs', effect: 'a lost act', isListed: true, isApart: false, words: '' },
  { name: 'n2', verdict: 'same', isListed: true, isApart: true, words: '' },
  { name: 'n3', verdict: 'not turned', why: 'the answer is kept back: it was not met again; the user\'s "x" comes later: both come from one act of the user', isListed: false, isApart: false, words: '' },
];
const FOUND = {
  runs: [call(['E (a.js:1)', 'F (a.js:2)'], ['E (a.js:1)']), call(['E (a.js:1)'], [])],
  loads: { without: [0.1, 0.3, 0.2], with: [0.4, 0.4, 0.6], idle: 0.5 },
  replay: { status: 1, seconds: 5 },
  costs: { seconds: 0.5, megabytes: 12 },
  measured: { runs: [FIGURES, { ...FIGURES, leftOut: 1 }], problems: PROBLEMS, replays: RACES },
};
const LINE = lineOf(ENTRY, FOUND, FACTS);
const EMPTY = lineOf({ ...ENTRY, page: '/usr/share/doc/p-doc/b.html' }, { ...FOUND, runs: [{ ...call([], []), status: 4, failure: 'no page' }, call([], [])] }, FACTS);
const FAILED = failedLine({ ...ENTRY, page: '/usr/share/doc/p-doc/c.html' }, new Error('no room'), FACTS);

module.exports = { LINE, EMPTY, FAILED, FACTS, PROBLEMS, RACES };
