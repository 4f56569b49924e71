'use strict';
// Syntax that Chromium runs and acorn alone does not read, what is no such syntax, and what is not marked.

const assert = require('node:assert');
const { test } = require('node:test');
const { EditedText } = require('./edits.js');
const { instrument } = require('./instrument.js');
const { withoutMarks } = require('./marks/delimiters.js');
const { parse } = require('./syntax/parse.js');

/** @typedef {import('./syntax/types').KindOfCode} KindOfCode */

const SCRIPTS = [
  '{ using x = null }', '(function () { using x = open(), y = null; x.read(y) })()', '(async () => { await using x = null; return () => x })()',
  '(function () { for (using x of list) f(() => x) })()', '(async () => { for await (using x of a); for (await using y of b) g(y) })()', '{ for (using x = null; ;) break }',
  'class A { static { using x = null } }', 'import("a.json", { with: { type: "json" } })', 'import(a, )', 'import(a, b, )',
  'if (0) f() = 1', 'if (0) f()++', 'if (0) for (f() in {});', 'var using = 1; using\n++using; using\nx = 1; var x', 'using in x', 'for (using of []) ;', 'using[0]', 'using\nx',
  '/[\\p{L}--[a-z]]/v.test(s)', '/(?i:a)b/.test(s)', '/(?<a>x)|(?<a>y)/.test(s)',
];
const MODULES = [
  'import x from "./a.json" with { type: "json" }; f(x)', 'import x from "./a.json"\nwith { "type": "json", }\nf(x)', 'import "./a.js" with {}',
  'export { default as y } from "./a.json" with { type: "json" }', 'export * from "./a.js" with {}', 'export * as z from "./a.json" with { type: "json" }\nvar b = 1',
  'using x = null; export const read = () => x', 'await using x = null', 'for await (using x of []) ;', 'import using from "./a.js"; using()',
];

/**
 * @param {string} code
 * @param {KindOfCode} kind
 * @param {'globals'|'objects'} depth
 */
const mark = (code, kind, depth) => instrument(code, { kind, depth, builtins: new Set(), site: () => 0, module: 2000000, numberOfModule: () => 2000001 });

for (const [kind, codes] of /** @type {[KindOfCode, string[]][]} */ ([['script', SCRIPTS], ['module', MODULES]])) {
  for (const code of codes) {
    test(`a ${kind}: ${code.replace(/\n/g, ' ')}`, () => {
      for (const depth of /** @type {const} */ (['globals', 'objects'])) {
        const { edits, fault } = mark(code, kind, depth);
        assert.ok(edits, fault?.message);
        const { text } = new EditedText(code, edits);
        assert.strictEqual(withoutMarks(text), code);
        assert.doesNotThrow(() => parse(text, kind), text);
      }
    });
  }
}

test('what Chromium refuses too', () => {
  for (const code of ['using x = null', '"use strict"; f() = 1', 'if (1) using x = null', '@d class A {}', 'import source x from "y"', 'x = 1 |> f']) {
    assert.strictEqual(mark(code, 'script', 'objects').fault?.kind, 'syntax', code);
  }
});

test('where the parser stops, and why', () => {
  assert.deepStrictEqual(mark('a = 1;\n  b c', 'script', 'objects').fault, { kind: 'syntax', message: 'Unexpected token', offset: 11, line: 2, column: 5 });
  for (const code of ['<!doctype html><p>', ' <a/>', '{"a": 1}', '\n{"a": {"b": []}}']) {
    assert.strictEqual(mark(code, 'script', 'objects').fault?.kind, 'other', code);
  }
  assert.strictEqual(mark('<!-- x\nb c', 'script', 'objects').fault?.kind, 'syntax');
});

test('deep expressions are marked or left alone', () => {
  const deep = [`'a'${'.b()'.repeat(8000)}`, `${'x='.repeat(9000)}1`, `a${'.b'.repeat(12000)}`, `a${'.b'.repeat(200000)}`, `${'('.repeat(50000)}1${')'.repeat(50000)}`,
    `f(${'a?b:'.repeat(20000)}c)`, `${'if(a)b;else '.repeat(20000)}c`, `${'a&&'.repeat(20000)}c`, `${'{'.repeat(20000)}${'}'.repeat(20000)}`, `x=${'1+'.repeat(50000)}1`];
  for (const code of deep) {
    for (const kind of /** @type {const} */ (['script', 'module'])) {
      for (const depth of /** @type {const} */ (['globals', 'objects'])) {
        const { edits, fault } = mark(code, kind, depth);
        if (edits) assert.strictEqual(withoutMarks(new EditedText(code, edits).text), code);
        else assert.strictEqual(fault?.kind, 'depth', code.slice(0, 20));
      }
    }
  }
});
