'use strict';
// The texts of functions without marks: also of an arrow function without a block, whose text ends inside of a mark.

const assert = require('node:assert');
const vm = require('node:vm');
const { test } = require('node:test');
const { EditedText } = require('./edits.js');
const { instrument } = require('./instrument.js');
const { withoutMarks } = require('./marks/delimiters.js');
const { IDLE } = require('./marks/helpers.js');

/** Functions as they are in a script: their texts are the same with marks. `q` is a variable of the function around them. */
const FUNCTIONS = [
  '()=>s', '()=>1+s', '()=>s=2', '()=>s++', '()=>s+=1', 'x=>()=>s', '()=>q', '()=>q++', '()=>q=5', '()=>q+=1', '()=>import("x")', '()=>new Foo', '()=>new Foo(s)',
  '()=>a.b', '()=>a[q]', '()=>a.b()', '()=>a.b=s', '()=>a.n++', '()=>delete a.b', '()=>"k" in a', '()=>typeof s', '()=>({s})', '()=>({q,...a})', '()=>[...a]',
  '()=>{ return s }', 'function () { return q + s }', 'async x=>await s', 'async()=>await q', '()=>`${s}`', '()=>(s,q)', '()=>Object.keys(a)', '()=>({q}=a)',
  '(x=s)=>x', '()=>()=>()=>q++', '()=>class{m(){return s}}', '()=>s ?? q', '()=>(q ||= s)', '()=>eval(s)', '()=>s // end', '()=>s/q', '()=>s /q/ 2',
];
const WAYS = [{ depth: 'globals' }, { depth: 'objects' }, { depth: 'objects', keepsAll: true }];

/**
 * The text of a function as a marked script sees it.
 * @param {string} own
 * @param {object} way
 * @param {string} before
 */
function textWithMarks(own, way, before) {
  const code = `${before}function around() { let q = 1; q = 2; return [${own}\n] }`;
  const { edits = [] } = instrument(code, { kind: 'script', builtins: new Set(['Object']), site: () => 1, ...way });
  const context = vm.createContext({});
  vm.runInContext(`${IDLE}${new EditedText(code, edits).text}`, context);
  return vm.runInContext('String(around()[0])', context);
}

for (const own of FUNCTIONS) {
  test(`the text of ${own}`, () => {
    const expected = own.replace(' // end', '');
    for (const way of WAYS) {
      assert.strictEqual(withoutMarks(textWithMarks(own, way, '')), expected, JSON.stringify(way));
      assert.strictEqual(withoutMarks(textWithMarks(own, way, '/* \f */ ')), expected, `${JSON.stringify(way)} in comments`);
    }
  });
}

test('a text without marks stays', () => {
  for (const text of ['', 'a', '\v', 'a \v b', '() => "\v"', '\f\v', '/* x */']) assert.strictEqual(withoutMarks(text), text);
});

test('marks that are whole, and one that is cut', () => {
  assert.strictEqual(withoutMarks('\v;\fa\v\fb\v)'), 'ab');
  assert.strictEqual(withoutMarks('a/\u2005/*\v\f<*/x/*\v\f>*/b/*\v\f<*/)'), 'a/b');
});
