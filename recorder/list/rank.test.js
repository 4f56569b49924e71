'use strict';
// The order of the list, by what problems do to the user of the page.

const assert = require('node:assert');
const { test } = require('node:test');
const { judgedOf, listsOf, sharesOf } = require('../test/corpus/judged-lists.js');
const { detailOf, isWorse, lookOf } = require('./patterns/table.js');
const { partOf, rankOf, sortByRank, JUDGED } = require('./rank.js');

/**
 * @typedef {import('./types').Verdict} Verdict
 * @typedef {{name: string, look: import('./patterns/table.js').Look, verdict?: Verdict}} One
 */

/**
 * @param {string} effect
 * @param {string[]} kinds of its differences
 * @returns {Verdict}
 */
const differs = (effect, kinds = []) => ({ race: 1, verdict: 'turned', effect: effect || undefined, words: '', differences: kinds.map((kind) => ({ kind })) });

/** @param {One[]} list */
const namesOf = (list) => sortByRank(list, ({ look, verdict }) => ({ rank: rankOf(look, verdict), part: partOf(look, verdict), isKnown: false })).map(({ name }) => name);

test('what a replay found comes first, and a lost act without another effect goes down', () => {
  assert.deepStrictEqual(namesOf([
    { name: 'same', look: lookOf('late'), verdict: differs('') },
    { name: 'event', look: lookOf('late'), verdict: differs('a lost act', ['event']) },
    { name: 'late', look: lookOf('late') },
    { name: 'act', look: lookOf('late'), verdict: differs('a lost act', ['event', 'text']) },
    { name: 'field', look: lookOf('field') },
    { name: 'content', look: lookOf('act'), verdict: differs('another content', ['text']) },
    { name: 'error', look: lookOf('late'), verdict: differs('an uncaught error', ['error']) },
    { name: 'not turned', look: lookOf('late'), verdict: { race: 1, verdict: 'not turned', words: '' } },
  ]), ['error', 'content', 'field', 'act', 'late', 'not turned', 'event', 'same']);
});

test('a section is where its first problem is', () => {
  const list = [{ name: 'late', look: lookOf('late') }, { name: 'use', look: lookOf('undefined') }, { name: 'other', look: lookOf('other') }];
  assert.deepStrictEqual(namesOf(list), ['use', 'late', 'other']);
  assert.deepStrictEqual(namesOf([...list, { name: 'field', look: lookOf('field') }]), ['field', 'late', 'use', 'other']);
});

test('the shares of harm are those of the judged problems', () => {
  assert.deepStrictEqual(JUDGED, sharesOf([...judgedOf('pages'), ...judgedOf('applications')], listsOf()));
});

test('an event by which a user chooses comes before one that comes again, and an element that is looked up before a variable', () => {
  const late = (/** @type {string} */ event) => ({ name: event, look: lookOf('late', '', detailOf('late', 'slot', event)) });
  assert.deepStrictEqual(namesOf([late('mousemove'), late('change'), late('keyup'), late('click')]), ['change', 'click', 'mousemove', 'keyup']);
  const use = (/** @type {string} */ word) => ({ name: word, look: lookOf('undefined', '', detailOf('undefined', word, '')) });
  assert.deepStrictEqual(namesOf([use('var'), use('elem')]), ['elem', 'var']);
});

test('the section of late handlers that changed nothing: not if more differs when the page runs again', () => {
  const idle = lookOf('late', 'here the handler was there, and changed nothing', 'choosing', { isUnchanged: true, isIdle: true });
  assert.deepStrictEqual([partOf(idle), partOf(idle, differs('a lost act', ['event'])), partOf(idle, differs('a lost act', ['event', 'text']))].map((part) => part.split(' ')[0]), ['late', 'late', 'loses']);
  assert.deepStrictEqual(namesOf([{ name: 'idle', look: idle }, { name: 'other', look: lookOf('other') }, { name: 'same', look: lookOf('same') }]).pop(), 'idle');
  assert.strictEqual(rankOf(idle).reason, 'its handler ran, and changed nothing that is recorded');
  assert.strictEqual(isWorse(lookOf('late'), idle), true);
  assert.strictEqual(isWorse(idle, lookOf('late')), false);
});

test('the harm of another race does not count: it differs only by that one', () => {
  const others = { ...differs('another content', ['event', 'text']), kind: /** @type {const} */ ('others'), ownEffect: 'a lost act', isReader: true };
  others.differences = [{ kind: 'event' }, { kind: 'text', from: [2] }];
  const late = (/** @type {boolean} */ isOfLittle) => lookOf('late', '', '', { isOfLittle });
  assert.deepStrictEqual([partOf(late(true), others), partOf(late(false), others)].map((part) => part.split(' ')[0]), ['late', 'loses']);
  assert.strictEqual(rankOf(late(true), others).reason, 'run again in the other order: a lost act, and nothing else differs');
  assert.strictEqual(rankOf(lookOf('other'), { ...others, ownEffect: undefined }).reason, 'run again in the other order: only another race makes a difference');
});

test('a line that covers a handler that changed nothing is shown by it only if a user chooses something by its event', () => {
  const unchanged = (/** @type {''|'choosing'} */ detail) => lookOf('late', 'here the handler was there, and changed nothing', detail, { isUnchanged: true });
  assert.deepStrictEqual([isWorse(unchanged('choosing'), lookOf('other')), isWorse(unchanged(''), lookOf('other')), isWorse(lookOf('late'), lookOf('other'))], [true, false, true]);
});

test('each rank has its reason in words', () => {
  assert.strictEqual(rankOf(lookOf('field')).reason, 'of 3 judged problems of the pattern "overwritten field" 3 did harm');
  assert.strictEqual(rankOf(lookOf('late'), differs('a lost act', ['event'])).reason, 'run again in the other order: a lost act, and nothing else differs');
});
