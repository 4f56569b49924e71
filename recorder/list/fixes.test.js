'use strict';
// The usual change for each pattern.

const assert = require('node:assert');
const { test } = require('node:test');
const { FIXES, OF_AGAIN, OF_IDLE, OF_PAGE, fixOf, fixOfSame } = require('./fixes.js');
const { Listing } = require('./listing.js');
const { APART, HARMLESS, LOOKS, SAME, isAgain, lookOf } = require('./patterns/table.js');
const { Problems } = require('./problems.js');
const { partOf } = require('./rank.js');
const { judgeLines } = require('../test/list-support.js');

/** @typedef {keyof typeof LOOKS} Key */

const KEYS = /** @type {Key[]} */ (Object.keys(LOOKS));
/** Of a line of the list, without its indentation and its label. */
const WIDTH = 91;

test('every pattern has a usual change, which is one line of the list, or two', () => {
  assert.deepStrictEqual(Object.keys(FIXES).sort(), [...KEYS].sort());
  for (const key of KEYS) {
    const fix = fixOf(key, { kind: 'variable', isOfUser: false });
    assert.match(fix, /^[a-z].*[^.]$/, key);
    assert.ok(fix.length <= WIDTH * (key === 'replies' ? 2 : 1), `${key}: ${fix.length}`);
  }
});

test('a field that is written twice, and one that is read', () => {
  const [written, read] = ['ww', 'rw'].map((modes) => fixOf('field', { kind: 'variable', isOfUser: true, modes }));
  assert.strictEqual(written, FIXES.field);
  assert.match(read, /^when code writes the field, clear the timeout/);
});

test('a use before the definition: of an element, of a variable, by a user', () => {
  const [element, variable, byUser] = [['element', false], ['variable', false], ['variable', true]].map(([kind, isOfUser]) => fixOf('undefined', { kind: String(kind), isOfUser: !!isOfUser }));
  assert.match(element, /`defer`/);
  assert.match(variable, /load event/);
  assert.match(byUser, /disable the control/);
  for (const one of [element, variable, byUser]) assert.ok(FIXES.undefined.includes(one));
});

/**
 * The changes for a late handler of an element's event, of which a script registers a handler that does something.
 * @param {string} tag @param {string} type @param {string[]} handler the lines of its run
 * @param {{target?: number, from?: string}} options the target of the handler, and the action that registers it
 */
async function fixesOfLate(tag, type, handler, { target = 1, from = 'exec 2' } = {}) {
  const { text, report } = await judgeLines(['parse 0 1 plain', 'parse 0 2 async', 'exec 2', ...from === 'exec 2' ? [] : ['set 1 0', from], 'on 1', `w slot ${target} ${type}/1`, `fire 1 1 ${type}`, `r slot ${target} ${type}/1`, 'run 1 0 1', ...handler, 'close 1']);
  const facts = { files: [{ address: 'http://a/page.html' }], elements: { 1: { tag, id: 'go' }, 3: { tag: 'HTMLDocument' }, 4: { tag: 'Window' }, 5: { standsFor: 3 } }, documents: {}, handlers: { 1: { type, target } }, timeouts: {}, intervals: {}, requests: {}, dispatches: { 1: { type, act: 1000 } }, objects: {}, places: {} };
  const listing = new Listing([new Problems(text, facts, report)], null);
  return listing.told().map(({ line }) => listing.fixOf(line));
}

test('a late handler: of what can be disabled, of what cannot, of an event that comes again', async () => {
  const writes = ['w var 0 x'];
  assert.deepStrictEqual(await fixesOfLate('button', 'click', writes), [FIXES.late]);
  assert.deepStrictEqual(await fixesOfLate('a', 'click', writes), ['register it in a script right after the element, or hide the element until then']);
  assert.deepStrictEqual(await fixesOfLate('a', 'mouseout', writes), ['usually none: the pointer comes again; to lose no event, register it after the element']);
  assert.deepStrictEqual(await fixesOfLate('input', 'blur', writes), [FIXES.late]);
  assert.deepStrictEqual(await fixesOfLate('input', 'mousedown', writes), [FIXES.late]);
  assert.deepStrictEqual(await fixesOfLate('body', 'click', writes), [FIXES.late], 'a page does not hide itself');
});

test('a late handler of the document or the window: it needs no element', async () => {
  const writes = ['w var 0 x'];
  for (const target of [3, 4, 5]) {
    assert.deepStrictEqual(await fixesOfLate('button', 'click', writes, { target }), [OF_PAGE.script]);
    assert.deepStrictEqual(await fixesOfLate('button', 'click', writes, { target, from: 'timer 1' }), [OF_PAGE.callback]);
    assert.deepStrictEqual(await fixesOfLate('button', 'mouseover', writes, { target }), [OF_AGAIN.replace('after the element', 'where its script runs')]);
  }
  assert.deepStrictEqual(await fixesOfLate('button', 'click', writes, { from: 'timer 1' }), [FIXES.late]);
  for (const fix of Object.values(OF_PAGE)) assert.ok(fix.length <= WIDTH, String(fix.length));
  assert.match(fixOf('late', { kind: 'handler', isOfUser: false, isByLibrary: true }), /^make this call/);
});

test('a late handler that a library registers: the call, and its libraries', () => {
  for (const tag of ['a', 'button']) {
    const fix = fixOf('late', { kind: 'handler', isOfUser: false, tag, isByLibrary: true });
    assert.strictEqual(fix, `make this call right after the element, its libraries before it, or ${tag === 'a' ? 'hide' : 'disable'} the element until then`);
  }
});

test('replies: nothing to change if they add to one another', () => {
  assert.match(FIXES.replies, /^if the newer reply is to replace what is shown: discard a reply to an older request .*; if both only add: none$/);
  const [both, one] = /** @type {const} */ (['both', 'one']).map((replace) => fixOf('replies', { kind: 'variable', isOfUser: false, replace }));
  assert.match(both, /^discard a reply to an older request/);
  assert.match(one, /^one reply adds to what the other replaces: discard/);
});

test('both sides in a library: there is nothing to change in it', () => {
  const fix = fixOf('other', { kind: 'variable', isOfUser: false, isInLibraries: true });
  assert.match(fix, /^both sides are library code: /);
  assert.ok(fix.length <= WIDTH, String(fix.length));
  assert.strictEqual(fixOf('replies', { kind: 'variable', isOfUser: false, isInLibraries: true }), FIXES.replies);
});

test('no visible difference when replayed: usually none, and the change of the pattern', () => {
  assert.strictEqual(fixOfSame(FIXES.replies), `usually none: nothing visible differs. If something else depends on the order: ${FIXES.replies}`);
  assert.strictEqual(fixOfSame(FIXES.same), FIXES.same);
  assert.match(fixOfSame(FIXES.other), /depends on the order: let one side wait/);
});

test('the change is "usually none" exactly in the sections that say so', async () => {
  const none = /^usually none: /;
  for (const key of KEYS) {
    const look = lookOf(key);
    const fix = fixOf(key, { kind: 'variable', isOfUser: false });
    assert.strictEqual(none.test(fix), [HARMLESS, APART].includes(partOf(look)), key);
    const part = partOf(look, { race: 1, verdict: 'turned', words: '', effect: '' });
    assert.ok([HARMLESS, APART, SAME].includes(part), `${key}: ${part}`);
    assert.match(fixOfSame(fix), none, key);
  }
  for (const [type, part] of [['mouseover', HARMLESS], ['focus', LOOKS.late.part], ['click', LOOKS.late.part], ['keydown', LOOKS.late.part]]) {
    const look = lookOf('late', type, '', { comesAgain: isAgain(type) });
    assert.strictEqual(partOf(look), part);
    assert.strictEqual(partOf(look, { race: 1, verdict: 'turned', words: '', effect: 'a lost act', differences: [{ kind: 'text' }] }), LOOKS.late.part, 'a replay that shows harm moves it');
  }
  assert.match(OF_AGAIN, none);
});

test('a late handler that changed nothing, of a mouse that moves and of a click', async () => {
  assert.deepStrictEqual(await fixesOfLate('button', 'mouseover', ['r var 0 y']), [OF_IDLE]);
  assert.deepStrictEqual(await fixesOfLate('button', 'click', ['r var 0 y']), [FIXES.late]);
  assert.match(OF_IDLE, /^usually none: /);
  assert.ok(OF_IDLE.length <= WIDTH, String(OF_IDLE.length));
});
