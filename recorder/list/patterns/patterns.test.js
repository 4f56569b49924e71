'use strict';
// Each pattern that looks like another one: a case that has it, and others that look alike and have not.

const assert = require('node:assert');
const { test } = require('node:test');
const { FIRST_FIELD } = require('../../common/numbers.js');
const { judgeLines } = require('../../test/list-support.js');
const { Problems } = require('../problems.js');

/**
 * @typedef {Partial<import('../types').Names>} Given
 * @typedef {[text: string, place?: number[], value?: string][]} Lines lines of a trace, with the place of their code and their value
 */

/** @type {import('../types').Names} */
const NAMES = {
  files: [{ address: 'http://localhost/app.js', text: '--app.active;\napp.active = 1;\nif (!app.cache) app.cache = make();\nuse(app.cache);\napp.sum += 2;\napp.sum == 2;\n' }],
  elements: {}, documents: {}, handlers: {}, timeouts: {}, intervals: {}, requests: {}, dispatches: {}, places: {},
  objects: { 3000000: { made: 'object', text: 'app' } },
};
const UPDATE = [0, 1, 7];
const WRITE = [0, 2, 5];
const CACHE = [0, 3, 10];
const USE = [0, 4, 9];
const ADD = [0, 5, 5];
const COMPARE = [0, 6, 5];

/**
 * The patterns of the races of a trace at one location, each once.
 * @param {Lines} lines
 * @param {string} location
 * @param {Given} facts
 */
async function patternsAt(lines, location, facts = {}) {
  /** @type {{[line: number]: import('../types').Place}} */
  const places = {};
  /** @type {{[line: number]: string}} */
  const values = {};
  lines.forEach(([, place, value], k) => {
    if (place) places[k + 2] = /** @type {import('../types').Place} */ (place);
    if (value) values[k + 2] = value;
  });
  const { text, report } = await judgeLines(lines.map(([line]) => line));
  const { ofRaces } = new Problems(text, { ...NAMES, places, values, ...facts }, report);
  return [...new Set(report.races.flatMap((race, k) => (race.location === location ? [ofRaces[k].look.look] : [])))];
}

const X = 'var 3000000 active';

/** @param {Lines} first @param {Lines} second @returns {Lines} */
const replies = (first, second) => [['parse 0 1 inline'], ['exec 1'], ['send 1'], ['send 2'], ['reply 1 1'], ...first, ['close 1'], ['reply 2 2'], ...second, ['close 2']];
/**
 * A user's click, and a timeout.
 * @param {Lines} act
 * @param {Lines} other
 * @returns {Lines}
 */
const actAndTimeout = (act, other) => [['parse 0 1 plain'], ['parse 0 2 inline'], ['exec 2'], ['set 1 0'], ['fire 1 1 click'], ...act, ['close 1'], ['timer 1'], ...other];
const ACT = { dispatches: { 1: { type: 'click', act: 1000 } } };

test('an answer that may overwrite a newer one', async () => {
  assert.deepStrictEqual(await patternsAt(replies([[`w ${X}`, WRITE]], [[`w ${X}`, WRITE]]), `${X}`), ['replies']);
  assert.deepStrictEqual(await patternsAt(replies([[`w ${X}`, UPDATE]], [[`w ${X}`, WRITE]]), `${X}`), ['replies'], 'one of them is written over');
  assert.deepStrictEqual(await patternsAt(replies([[`w ${X}`, COMPARE]], [[`w ${X}`, COMPARE]]), `${X}`), ['replies'], 'a comparison is no assignment');
});

test('what looks like it: requests that are counted, a sum, keys of one set', async () => {
  const count = [`r ${X}`, `w ${X}`];
  const counted = /** @type {[string, number[]?][]} */ (count.map((line) => [line, UPDATE]));
  const both = await patternsAt(replies(counted, counted), X);
  assert.ok(!both.includes('replies'), String(both));
  assert.ok(!(await patternsAt(replies([[`w ${X}`, ADD]], [[`w ${X}`, ADD]]), X)).includes('replies'));
  const names = 'var 3000000 (names)';
  assert.deepStrictEqual(await patternsAt(replies([[`w ${names}`, WRITE]], [[`w ${names}`, WRITE]]), names), ['other']);
  const unknown = /** @type {[string, number[]?][]} */ (count.map((line) => [line, USE]));
  assert.ok(!(await patternsAt(replies(unknown, unknown), X)).includes('replies'), 'read and written at one place, whatever its text is');
});

test('what a user\'s act wrote may be written over', async () => {
  assert.deepStrictEqual(await patternsAt(actAndTimeout([[`w ${X}`, WRITE]], [[`w ${X}`, WRITE]]), X, ACT), ['act']);
  assert.deepStrictEqual(await patternsAt(actAndTimeout([[`w ${X}`, UPDATE]], [[`w ${X}`, WRITE]]), X, ACT), ['act'], 'the count of an act is lost');
});

test('what looks like it: a counter, and keys of one set', async () => {
  assert.deepStrictEqual(await patternsAt(actAndTimeout([[`w ${X}`, WRITE]], [[`w ${X}`, ADD]]), X, ACT), ['other']);
  const names = 'var 3000000 (names)';
  assert.deepStrictEqual(await patternsAt(actAndTimeout([[`w ${names}`, WRITE]], [[`w ${names}`, WRITE]]), names, ACT), ['other']);
});

test('what looks like it: the change of a media query, which no user makes', async () => {
  const changes = (/** @type {string} */ tag) => patternsAt(/** @type {Lines} */ (actAndTimeout([[`w ${X}`, WRITE]], [[`w ${X}`, WRITE]]).map(([text, ...more]) => [text.replace('click', 'change'), ...more])),
    X, { dispatches: { 1: { type: 'change' } }, elements: { 1: { tag } } });
  assert.deepStrictEqual(await changes('select'), ['act']);
  assert.deepStrictEqual(await changes('HTMLDocument'), ['act']);
  assert.ok(!(await changes('MediaQueryList')).includes('act'));
});

const C = 'var 3000000 cache';

/** @param {Lines} first @param {Lines} second @returns {Lines} */
const scripts = (first, second) => [['parse 0 1 async'], ['parse 0 2 async'], ['exec 1'], ...first, ['exec 2'], ...second];

test('a use before the definition', async () => {
  const facts = { befores: { 5: '-' } };
  assert.deepStrictEqual(await patternsAt(scripts([[`w ${C}`, CACHE, 'o']], [[`r ${C}`, USE, 'o']]), C, facts), ['undefined']);
  const filled = scripts([[`r ${C}`, CACHE, '-'], [`w ${C}`, CACHE, 'o']], [[`r ${C}`, USE, 'o']]);
  assert.deepStrictEqual(await patternsAt(filled, C, { befores: { 6: '-' } }), ['undefined'], 'the place that reads fills no cache');
});

test('what looks like it: a cache, which each side fills', async () => {
  const filled = scripts([[`r ${C}`, CACHE, '-'], [`w ${C}`, CACHE, 'o']], [[`r ${C}`, CACHE, 'o']]);
  assert.deepStrictEqual(await patternsAt(filled, C, { befores: { 6: '-' } }), ['other']);
  const both = scripts([[`r ${C}`, CACHE, '-'], [`w ${C}`, CACHE, 'o']], [[`r ${C}`, CACHE, '-'], [`w ${C}`, CACHE, 'o']]);
  assert.ok(!(await patternsAt(both, C, { befores: { 6: '-', 9: '-' } })).includes('undefined'));
});

test('what looks like it: an element of two with one id, and an attribute with which an element comes', async () => {
  const added = (/** @type {Lines} */ reader) => /** @type {Lines} */ ([['parse 0 1 async'], ['parse 0 2 async'], ['parse 0 3 async'], ['exec 1'], ['w elem 0 node', WRITE, 'o'], ['exec 2'], ['w elem 0 node', ADD, 'o'], ['set 1 0'],
    ...reader, ['r elem 0 node', USE, 'o']]);
  assert.deepStrictEqual(await patternsAt(added([['timer 1']]), 'elem 0 node'), ['other'], 'the code that looks it up has added one itself');
  assert.ok((await patternsAt(added([['exec 3']]), 'elem 0 node')).includes('undefined'), 'both can come later');
  const attribute = `var ${FIRST_FIELD + 5} data-module`;
  const made = (/** @type {Lines} */ lines) => patternsAt(scripts(lines, [[`r ${attribute}`, USE, 's1a1']]), attribute, { befores: { 5: '-', 6: '-' } });
  assert.deepStrictEqual(await made([['new 0 5 plain'], [`w ${attribute}`, WRITE, 's1a1']]), ['other']);
  assert.deepStrictEqual(await made([[`w ${attribute}`, WRITE, 's1a1'], ['new 0 5 plain']]), ['other'], 'it is set before the element is in the page');
  assert.deepStrictEqual(await patternsAt([['parse 0 5 plain'], ...scripts([[`w ${attribute}`, WRITE, 's1a1']], [[`r ${attribute}`, USE, 's1a1']])], attribute, { befores: { 6: '-' } }), ['undefined']);
});

const S = 'var 3000000 type';
/**
 * Clicks that write a property, each once.
 * @param {number} count
 * @returns {Lines}
 */
const clicks = (count) => Array.from({ length: count }, (none, k) => /** @type {[string, number[]?][]} */ ([[`fire ${k + 1} 1 click`], [`w ${S}`, WRITE], [`close ${k + 1}`]])).flat();
/** @param {Lines} more @returns {Lines} */
const timers = (more) => [['parse 0 1 plain'], ['parse 0 2 inline'], ['exec 2'], ['set 1 0'], ['set 2 9'], ...clicks(1), ['timer 1'], [`w ${S}`, WRITE], ['timer 2'], ...more];

test('a scratch value, which each action writes whole', async () => {
  assert.deepStrictEqual(await patternsAt(timers([[`w ${S}`, WRITE]]), S, ACT), ['scratch']);
});

test('a scratch value whose first value was read, which is a race of its own', async () => {
  const lines = timers([[`w ${S}`, WRITE]]);
  const early = /** @type {Lines} */ ([...lines.slice(0, 3), ['set 3 0'], ...lines.slice(3)]);
  const at = early.findIndex(([line]) => line.startsWith('fire'));
  early.splice(at, 0, ['timer 3'], [`r ${S}`, USE]);
  const looks = await patternsAt(early, S, ACT);
  assert.ok(looks.includes('scratch') && looks.some((look) => look !== 'scratch') && !looks.includes('act'), String(looks));
});

test('what looks like it: a read of what another action wrote, a sum, two actions', async () => {
  assert.ok((await patternsAt(timers([[`r ${S}`, USE], [`w ${S}`, WRITE]]), S, ACT)).includes('act'));
  assert.ok((await patternsAt(timers([[`w ${S}`, ADD]]), S, ACT)).includes('act'));
  assert.deepStrictEqual(await patternsAt(actAndTimeout([[`w ${S}`, WRITE]], [[`w ${S}`, WRITE]]), S, ACT), ['act']);
  assert.ok(!(await patternsAt(timers([[`w ${S}`, WRITE]]).map(([line, ...rest]) => [line.replace(S, 'var 0 type'), ...rest]), 'var 0 type', ACT)).includes('scratch'), 'a global variable is the page\'s');
});

/** @type {[text: string, column: number, isScratch: boolean][]} writes of a property, and whether none reads the old value */
const TEXTS = [
  ['function pulse() { S.n = (S.n + 1) % 4; setTimeout(pulse, 60 + S.n * 7); }', 22, false],
  ['S.n = 1; S.m = S.n + 1', 3, true],
  ['S.n=1,S.m=S.n', 3, true],
  ['S["n"] = 1 + S["n"]', 3, false],
  ['S[k] = f(S[k])', 3, false],
  ['S.n = [...S.n, x]', 3, false],
  ['S.n = one\n  ? S.n : 1', 3, false],
  ['S.n = 1\nS.m = S.n', 3, true],
  ['S.n = {', 3, false],
  ['event.n = n', 7, true],
  ['S.n = T.n', 3, false],
  ['S.n = S.next()', 3, false],
  ['S.n = next()', 3, true],
  ['S.n === S.n', 3, true],
  ['', 3, false],
];

test('what looks like it: an update whose read is not in the trace, as the text says', async () => {
  for (const [text, column, isScratch] of TEXTS) {
    const files = [{ address: 'http://localhost/app.js', text: `\napp.active = 1;\n${text}\n` }];
    const looks = await patternsAt(timers([[`w ${S}`, [0, 3, column]]]), S, { ...ACT, files });
    assert.strictEqual(looks.includes('scratch'), isScratch, `${text}: ${looks}`);
  }
  const overAct = (/** @type {string} */ text) => patternsAt(actAndTimeout([[`w ${S}`, WRITE]], [[`w ${S}`, [0, 3, 3]]]), S, { ...ACT, files: [{ address: 'http://localhost/app.js', text: `\napp.active = 1;\n${text}\n` }] });
  assert.deepStrictEqual([await overAct('S.n = S.n + 1'), await overAct('S.n = T.n'), await overAct('S.n = "S.n"')], [['other'], ['act'], ['act']], 'an update keeps what the act wrote; a doubt does not make it one');
});

const FIELD = `var ${FIRST_FIELD + 1} value`;
const TYPED = /** @type {Lines} */ ([['parse 0 1 plain'], ['parse 0 2 inline'], ['exec 2'], ['on 1'], ['w slot 1 keydown'], ['fire 1 1 input'], [`w ${FIELD}`], ['set 1 0'], ['close 1']]);
/**
 * A user types into a field, a timeout reads it, and then the handler of a key does something.
 * @param {Lines} handler
 * @returns {Lines}
 */
const typedThen = (handler, typed = TYPED) => [...typed, ['timer 1'], [`r ${FIELD}`, USE], ['fire 2 1 keydown'], ['r slot 1 keydown'], ['run 2 0 1'], ...handler, ['close 2']];
const BY_USER = { dispatches: { 1: { type: 'input', act: 1000 }, 2: { type: 'keydown', act: 2000 } } };

test('a field that code writes over what a user typed, before it is read', async () => {
  assert.deepStrictEqual(await patternsAt(typedThen([[`w ${FIELD}`, WRITE]]), FIELD, BY_USER), ['acts', 'field'], 'the letter against the key, and the timeout against the key');
});

test('what looks like it: a value made of the typed one, another letter, nothing typed', async () => {
  const madeOfIt = await patternsAt(typedThen([[`r ${FIELD}`, USE], [`w ${FIELD}`, WRITE]]), FIELD, BY_USER);
  assert.ok(!madeOfIt.includes('field'), String(madeOfIt));
  const letter = /** @type {Lines} */ ([...TYPED, ['timer 1'], [`r ${FIELD}`, USE], ['fire 2 1 input'], [`w ${FIELD}`], ['close 2']]);
  assert.ok(!(await patternsAt(letter, FIELD, BY_USER)).includes('field'));
  const untyped = TYPED.filter(([line]) => !line.startsWith('w '));
  assert.ok(!(await patternsAt(typedThen([[`w ${FIELD}`, WRITE]], untyped), FIELD, BY_USER)).includes('field'));
});
