'use strict';
// A call that fails is reported in the words of the page's own code. No browser.

const assert = require('node:assert');
const { test } = require('node:test');
const { runInNewContext } = require('node:vm');
const { ownCallSite } = require('./call-site.js');

/**
 * What is reported of the call at `at` of a text.
 * @param {string} marked
 * @param {string} text
 * @param {string} at
 */
const told = (marked, text, at) => ownCallSite(marked, { text, offset: text.indexOf(at) });
/**
 * Runs a function; an error if it takes more than five seconds.
 * @param {() => void} call
 */
const soon = (call) => runInNewContext('call()', { call }, { timeout: 5000 });

test('methods, keys, constructors and templates', () => {
  assert.strictEqual(told('__er.p(...).menu', 'a(); $("b").menu({ c: 1 });', 'menu'), '$(...).menu');
  assert.strictEqual(told('__er.p(...).on', 'find(find(1)).list[0].on(x).off()', 'on('), 'find(...).list[0].on');
  assert.strictEqual(told('__er.t[__er.k(...)]', 'find().deep[name](2)', '(2)'), 'find(...).deep[name]');
  assert.strictEqual(told('__er.p(...).Class', 'new find.Class(1)', 'new'), 'find.Class');
  assert.strictEqual(told('__er.p(...).er', 'find().deep.er`x`', '`x`'), 'find(...).deep.er');
  assert.strictEqual(told('__er.p(...)?.er', 'find().deep?.er()', 'er()'), 'find(...).deep?.er');
  assert.strictEqual(told('(__er.r(...) , find)(...).er', 'find().er()', 'er()'), 'find(...).er');
});

test('the whole chain, and nothing around it', () => {
  assert.strictEqual(told('__er.p(...).menu', 'call(window.find().menu(1), 2)', 'menu'), 'window.find(...).menu');
  assert.strictEqual(told('__er.p(...).menu', 'call(...find()\n  .menu(', 'menu'), 'find(...).menu');
  assert.strictEqual(told('__er.p(...).menu', 'return new find.Class(1).menu()', 'menu'), '(intermediate value).menu');
});

test('what stands for the words of a mark is found in no time', () => soon(() => {
  const marks = '__er.p(...)'.repeat(12);
  assert.strictEqual(told(`${marks}.y`, `a${'[b]'.repeat(40)}.z()`, 'z'), null);
  assert.strictEqual(told(`a[${'__er.p(...)]['.repeat(6)}c].z`, `a${'[b]'.repeat(40)}.z()`, 'z'), null);
  assert.strictEqual(told('a[__er.p(...)][__er.p(...)].z', `a${'[b]'.repeat(40)}.z()`, 'z'), `a${'[b]'.repeat(40)}.z`);
  assert.strictEqual(told('find__er.p(...)(...).z', 'find().z()', 'z'), null); // a mark stands for a word at the least
}));

test('of what a call hands over nothing is read, and what was told of a place is known', () => soon(() => {
  const text = `new find.Class(${'[a, "b"], '.repeat(400000)})`;
  const known = new Map();
  for (let k = 0; k < 2000; k++) assert.strictEqual(ownCallSite('__er.p(...).Class', { text, offset: 0, known }), 'find.Class');
  assert.strictEqual(ownCallSite('__er.p(...).Other', { text, offset: 0, known }), null);
  assert.strictEqual(known.size, 2);
  assert.strictEqual(told('__er.p(...).Class', 'new (find().deep.Class)(2)', 'new'), 'find(...).deep.Class');
  assert.strictEqual(told('__er.p(...).Class', 'new find.Class', 'new'), 'find.Class');
}));

test('words of the language begin no chain', () => {
  const words = ['await', 'yield', 'of', 'async', 'typeof', 'void', 'delete', 'in', 'instanceof', 'return', 'throw', 'case', 'else', 'do'];
  for (const word of words) {
    assert.strictEqual(told('__er.p(...).jsno', `a ${word} (find(u)).jsno()`, 'jsno'), null, word);
    assert.strictEqual(told('__er.p(...).jsno', `a ${word} [find(u)].jsno()`, 'jsno'), null, word);
    assert.strictEqual(told('__er.p(...).jsno', `a ${word} find(u).jsno()`, 'jsno'), 'find(...).jsno', word);
  }
  assert.strictEqual(told('__er.p(...).jsno', 'await (await fetch(u)).jsno()', 'jsno'), null);
  assert.strictEqual(told('__er.p(...).jsno', 'new (find())(u).jsno()', 'jsno'), '(intermediate value).jsno');
  assert.strictEqual(told('__er.p(...).jsno', 'async.of(u).jsno()', 'jsno'), 'async.of(...).jsno');
});

test('what is another call, or none, has no words', () => {
  assert.strictEqual(told('__er.p(...).open', 'find().menu()', 'menu'), null);
  assert.strictEqual(told('__er.p(...).menu', 'find() .. menu', 'menu'), null);
  assert.strictEqual(told('__er.p(...).menu', '(a ? b : c).find().menu()', 'menu'), null);
  assert.strictEqual(told('__er.p(...).menu', '// as in find\n(a ? b : c).menu()', 'menu'), null);
  assert.strictEqual(told('__er.p(...).menu', 'find().menu()', 'find'), null);
});
