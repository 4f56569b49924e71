'use strict';
// The sentence of each pattern.

const assert = require('node:assert');
const { test } = require('node:test');
const { LOOKS } = require('./patterns/table.js');
const { sentenceOf } = require('./sentences.js');

const SIDE = { verb: '', what: '', place: '', actor: 'DOMContentLoaded', event: '', act: '', at: null, own: null };

/**
 * @typedef {import('./sentences.js').Facts} Facts
 * @typedef {keyof typeof LOOKS} Key
 */

/**
 * @param {Key} look
 * @param {Partial<Facts>} given
 */
const sentence = (look, given = {}) => sentenceOf(look, { sides: [SIDE, SIDE], subjects: ['the timeout show', 'the reply of a.json'], thing: '`x`', field: 'input#q', modes: 'rw', kind: 'variable', isReplaced: false, ...given });

test('what a user loses is named by the event, the field or the act', () => {
  assert.strictEqual(sentence('late', { sides: [SIDE, { ...SIDE, event: 'input at input#q' }] }), 'An input at input#q is lost until its handler is registered');
  assert.strictEqual(sentence('late', { sides: [SIDE, { ...SIDE, event: 'click at a "Start"' }], otherwise: 'follows the link' }), 'Until its handler is registered, a click at a "Start" only follows the link');
  assert.strictEqual(sentence('field', { modes: 'ww' }), 'What is typed into input#q is overwritten');
  assert.strictEqual(sentence('field'), 'What is typed into input#q may be overwritten before it is read');
  assert.strictEqual(sentence('act', { sides: [SIDE, { ...SIDE, act: 'the click at button#add' }] }), '`x`, set after the click at button#add, may be overwritten');
});

test('an element is not in the page yet, and a variable is not defined yet', () => {
  assert.strictEqual(sentence('undefined'), '`x` may not be defined yet');
  assert.strictEqual(sentence('undefined', { kind: 'element', thing: '`#offer`' }), '`#offer` may not be in the page yet');
  assert.strictEqual(sentence('undefined', { thing: 'the class of div' }), 'The class of div may not be set yet');
  assert.strictEqual(sentence('missed'), 'DOMContentLoaded may come before its handler is registered');
});

test('two replies are named by their requests, the older one first', () => {
  const of = (/** @type {boolean} */ isOneCallback, newer = 'b.json') => sentence('replies', { thing: 'the content of div#plot', replies: { older: 'a.json', newer, isOneCallback, isInOrder: true, replace: '' } });
  assert.strictEqual(of(false), 'The reply of a.json may come after that of b.json, and both write div#plot');
  assert.strictEqual(of(true), 'An older reply may come after a newer one');
  for (const isOne of [true, false]) assert.strictEqual(of(isOne, 'a.json'), 'An older reply of a.json may come after a newer one');
});

test('one act of a user, or two', () => {
  assert.deepStrictEqual([sentence('acts'), sentence('acts', { ofOneAct: 'handlers' }), sentence('acts', { ofOneAct: 'others' })],
    ['Two acts of a user reach `x`', 'One act of a user runs two handlers that reach `x`', 'One act of a user reaches `x` twice']);
});

test('every pattern has a sentence that starts with a capital or a name, and has no end', () => {
  for (const key of /** @type {Key[]} */ (Object.keys(LOOKS))) assert.match(sentence(key), /^[A-Z`].*[^.]$/, key);
});

test('where no harm is known, both sides are named', () => {
  assert.strictEqual(sentence('other'), 'The reply of a.json may write `x` before or after the timeout show reads it');
  assert.strictEqual(sentence('other', { modes: 'ww' }), 'The reply of a.json may write `x` before or after the timeout show does');
  assert.strictEqual(sentence('other', { modes: 'ww', isReplaced: true }), '`x` keeps what is written last, by the reply of a.json or by the timeout show');
  assert.strictEqual(sentence('other', { sides: [{ ...SIDE, verb: 'writes again' }, SIDE] }), 'The reply of a.json may write `x` before or after the timeout show writes it again');
  assert.strictEqual(sentence('other', { sides: [{ ...SIDE, verb: 'looks up' }, SIDE], kind: 'element', thing: '`#a`' }), 'The reply of a.json may add or change `#a` before or after the timeout show looks it up');
  assert.strictEqual(sentence('other', { modes: 'ww', kind: 'element', thing: '`#a`' }), 'The reply of a.json may add or change `#a` before or after the timeout show does');
  assert.match(sentence('other', { modes: 'ww', kind: 'handler', thing: 'click of a' }), /^The reply of a\.json may register or remove a handler of click of a before or after the timeout show does$/);
});
