'use strict';
// Marked code: it does what it did, its marks can be taken out, and its places lead back. No browser.

const assert = require('node:assert');
const { test } = require('node:test');
const { EditedText } = require('./edits.js');
const { instrument } = require('./instrument.js');
const { withoutMarks } = require('./marks/delimiters.js');
const { readTags } = require('./tags.js');
const { warmUp, MINIFIED } = require('./warm-up.js');
const { Sources } = require('../texts/sources.js');

const BUILTINS = new Set(['window', 'document', 'setTimeout', 'String', 'Array', 'Object', 'Promise']);

/**
 * @param {string} code
 * @param {import('./syntax/types').KindOfCode} kind
 */
function marked(code, kind = 'script') {
  let sites = 0;
  const result = instrument(code, { kind, builtins: BUILTINS, site: () => sites++, module: 2000000, type: 'click' });
  if (result.fault) throw new Error(result.fault.message);
  return new EditedText(code, result.edits);
}

/** @typedef {unknown} Value of the code that is marked */

/**
 * The accesses of a piece of code, as it runs.
 * @param {string} code
 */
function accessesOf(code) {
  /** @type {string[]} */
  const seen = [];
  const note = (/** @type {string} */ mode) => (/** @type {string} */ name, /** @type {number} */ site, /** @type {Value} */ value) => {
    seen.push(`${mode} ${name}`);
    return value;
  };
  const ofObject = (/** @type {string} */ mode) => (/** @type {Value} */ object, /** @type {string} */ name) => {
    seen.push(`${mode} ${name}`);
    return object;
  };
  const fo = (/** @type {Value} */ object, /** @type {string} */ name, /** @type {number} */ site, /** @type {Value} */ value) => note('w')(name, site, value);
  const same = (/** @type {Value} */ value) => value;
  const helpers = { r: note('r'), w: note('w'), u: note('u'), ro: ofObject('r'), wo: ofObject('w'), uo: ofObject('u'), fo, aw: same, ao: same, as() {},
    scriptBegins() {}, scriptEnds() {} };
  new Function('__er', 'document', 'window', marked(code).text)(helpers, {}, {});
  return seen;
}

const PIECES = [
  'var a = 1, b;\nb = a\na++\n(function () { var a = 2; c = a })()',
  'let x = () => 1, y = class {}\nif (x.name !== "x" || y.name !== "y") throw Error("name")',
  'var o = { a() { return 1 }, get b() { return 2 }, ["c" + 1]: 3 }, { b, ...rest } = o',
  'for (var i = 0; i < 2; i++) q = i\nfor (const k of [1]) q = k\nfor (z in { m: 1 });',
  'label: for (;;) { break label }\ndo q = 1\nwhile (false)',
  'var t = `a${typeof missing}b`\nvar f = function () { return t }\nf()',
  'try { throw { e: 1 } } catch ({ e }) { q = e } finally { q = 2 }',
  'switch (1) { case 1: let s = 2; q = s }',
  'class A { static n = 1; #p = 2; get p() { return this.#p } }\nnew A().p',
  '"use strict"\nvar late = 1 // the end',
  'var shorthand = 1; var made = { shorthand }; if (made.shorthand !== 1) throw Error("shorthand")',
  '(async () => { await null; q = 1 })()\nvar g = function* () { yield q }',
  'var half = 1 / Math.PI, quarter = 1/Math.PI, word = /a/.source',
  'window.w1 = 1; delete window.w1; window["w2"] += 1',
];

for (const code of PIECES) {
  test(`runs as before: ${code.slice(0, 40).replace(/\n/g, ' ')}`, () => {
    assert.strictEqual(withoutMarks(marked(code).text), code);
    assert.doesNotThrow(() => accessesOf(code));
  });
}

test('accesses to global variables alone', () => {
  assert.deepStrictEqual(accessesOf('var a = 1; function f(a) { return a + b.c } a = typeof d; a++; var b = {}; f(a); String(a)'),
    ['w a', 'r d', 'w a', 'u a', 'w b', 'r f', 'r a', 'r b', 'r a']);
});

test('a module: its own variables, and those of the window', () => {
  const { text } = marked('import { a } from "./a.mjs";\nexport const own = a;\nwindow.shared = own;\nlet { x } = a; x++', 'module');
  assert.match(text, /__er\.wm\(2000000,"own"/);
  assert.match(text, /__er\.rm\(2000000,"own"/);
  assert.match(text, /__er\.fo\(window,"shared",\d+,/);
  assert.match(text, /__er\.um\(2000000,"x"/);
});

test('a module that a page loads as a script fails at its own first import or export', () => {
  for (const code of ['function f() { return 1 }\nexport { f };', 'import { a } from "./a.mjs";\nlet b = a;', '"use strict";\nexport default function () { return 1 }\nlet b = 1;']) {
    const { text } = marked(code, 'module');
    assert.ok(text.search(/^(?:import|export)/m) < text.indexOf('import.meta'), text);
    assert.throws(() => new Function(text), { message: code.includes('import {') ? /import statement/ : /Unexpected token 'export'/ });
  }
});

test('marks at objects and closures stand around what they tell of', () => {
  const marks = (/** @type {string} */ code) => {
    const { edits = [] } = instrument(code, { kind: 'script', depth: 'objects', builtins: BUILTINS, site: () => 0 });
    const { text } = new EditedText(code, edits);
    return text.replace(/[\v\f]/g, '').replace(/^.*?currentScript,0,\[.*?\]\);/, '').replace(/;__er\.scriptEnds.*$/, '').replace(/,0\)/g, ')').replace(/\(__er\.r\("\w+"\),(\w+)\)/g, '$1');
  };
  assert.strictEqual(marks('a.b'), '__er.p(a,"b").b');
  assert.strictEqual(marks('a?.b.c?.d'), '__er.p(__er.p(a,"b")?.b.c,"d")?.d');
  assert.strictEqual(marks('new a.b()'), 'new (__er.p(a,"b").b)()');
  assert.strictEqual(marks('delete a.b'), 'delete __er.g(a,"b").b');
  assert.strictEqual(marks('function f(a, k) { a[k] = 1 }'), 'function f(a, k) { a[__er.l(a,k)] = 1 }');
  assert.strictEqual(marks('function f(a) { a.b = g() }'), 'function f(a) { a.b = __er.f(a,"b",0,g()) }');
  assert.strictEqual(marks('f()[k]'), '(__er.t=f())[__er.k(__er.t,k)]');
  assert.strictEqual(marks('Math.max([1].length)'), 'Math.max([1].length)');
  assert.strictEqual(marks('if (ok) a.n++; else b.n--;'), 'if (ok) __er.B(a,"n").n++; else __er.B(b,"n").n--;');
  assert.strictEqual(marks('ok ? a.n++ : b.n--, a.m += 1'), 'ok ? __er.B(a,"n").n++ : __er.B(b,"n").n--, __er.B(a,"m").m += 1');
  assert.strictEqual(marks('f((a.n++, ok && b.n--))'), 'f((__er.B(a,"n").n++, ok && __er.b(b,"n").n--))');
  assert.strictEqual(marks('function f() { let n = 0, m = 0; return () => n++ + m }'),
    'function f() {;var __er_1=__er.s(0); let n = 0, m = 0; return () => __er.y(__er_1,"n",0,n,n++,n) + m }');
});

test('a statement without a semicolon, where another one follows', () => {
  const semicolons = (/** @type {string} */ code) => marked(code).text.match(/;\f/g)?.length;
  assert.strictEqual(semicolons('b = a\na++'), 3); // the begin, the statement, the end
  assert.strictEqual(semicolons('{ b = a }\nif (a) { b\n}'), 2);
});

test('code to mark before the page comes', () => {
  assert.doesNotThrow(warmUp);
  assert.strictEqual(withoutMarks(marked(MINIFIED).text), MINIFIED);
});

test('text that is no JavaScript', () => {
  assert.ok(instrument('this is none', { kind: 'script', builtins: BUILTINS, site: () => 0 }).fault);
});

test('places lead back to the original', () => {
  const code = 'var a = 1;\nfoo(a, bar);\n';
  const edited = marked(code);
  const line = edited.text.split('\n')[1];
  assert.deepStrictEqual(edited.originalPlace(2, line.indexOf('bar\v') + 1), { line: 2, column: 8 });
  assert.deepStrictEqual(edited.originalPlace(2, line.indexOf(');\v;') + 1), { line: 2, column: 11 });
});

test('marking takes time by the length of a script, also of one with many statements', () => {
  const timeOf = (/** @type {number} */ count) => {
    const code = 'v = { a: 1 };\n'.repeat(count);
    const begin = process.cpuUsage();
    marked(code);
    const { user, system } = process.cpuUsage(begin);
    return user + system;
  };
  timeOf(3000);
  const [short, long] = [timeOf(3000), timeOf(60000)];
  assert.ok(long < 100 * short, `${short} and ${long} microseconds`);
});

test('a page: scripts, handlers, addresses, and what is dropped', () => {
  const sources = new Sources();
  const page = '<p id=a onclick="n++; say(&quot;x&quot;)">\n<a href="javascript:go()">x</a><script integrity="sha" src=a.js></script>\n<script>\nvar n = 1 // <p>\n</script>\n<script type="application/json">{"a": 1}</script><!-- <script>x</script> -->';
  const text = sources.rewritePage('http://localhost/', page);
  assert.match(text, /handlerBegins\(this,event,&quot;click&quot;\)/);
  assert.match(text, /javascript:%0B%3B__er\.addressBegins/);
  assert.ok(!text.includes('integrity'));
  assert.ok(text.includes('{"a": 1}'));
  assert.ok(text.includes('<!-- <script>x</script> -->'));
  assert.match(text, /scriptEnds\(\);\f \/\/ <p>/);
  assert.strictEqual(text.split('\n').length, page.split('\n').length);
  assert.deepStrictEqual([...sources.dropped], [['integrity attributes', 1]]);
  assert.deepStrictEqual(sources.nextTag('http://localhost/', 'a'), [0, 2, 1]);
  assert.strictEqual(sources.nextTag('http://localhost/', 'script', { source: 'b.js' }), null);
  assert.deepStrictEqual(sources.nextTag('http://localhost/', 'script', { source: 'a.js' }), [0, 2, 32]);
});

test('tags: attributes, raw text, templates', () => {
  const tags = readTags('<DIV Class=x data-a=\'1\' b><textarea><p></textarea><template><i></template><i/><script><!-- <script> </script> --></script><b>');
  assert.deepStrictEqual(tags.map(({ name }) => name), ['div', 'textarea', 'template', 'i', 'i', 'script', 'b']);
  assert.deepStrictEqual(tags[0].attributes.map(({ name, value }) => [name, value]), [['class', 'x'], ['data-a', '1'], ['b', '']]);
  assert.deepStrictEqual(tags.filter(({ inTemplate }) => inTemplate).map(({ name }) => name), ['i']);
});
