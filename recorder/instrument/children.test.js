'use strict';
// The table of children against the trees that acorn makes: no child of any type of node is left out.

const assert = require('node:assert');
const { test } = require('node:test');
const { KEYS } = require('./syntax/children.js');
const { parse } = require('./syntax/parse.js');

/** Code in which each type of node is. */
const SAMPLES = {
  script: [
    'a: for (;;) { break a; continue a } switch (1) { case 1: 2; default: 3 } with (b) c; if (a) b; else c; while (a) b; do b; while (a);',
    'for (a in b); for (var k in a); for (let q of z); ; debugger; try {} catch (e) {} finally {} try {} catch {} throw a',
    '({ a, b: 1, c() {}, get d() { return 1 }, [e]: 2, ...f }); [a, , ...b]; [a, , ...b] = c; ({ a = 1, ...b } = c); f(...a); new F(1); a?.b?.(); `x${a}y`; t`a`',
    'typeof a; a++; a + b; a && b; a ? b : c; (a, b); this; 1; /a/; 1n; import("x", { with: y }); x => x; new class {}',
    'class A extends B { #p = 1; static { 1 } m() { super.m(); #p in this; new.target } [x] = 2; static async *g() { yield a; yield* b } }',
    'async function f(a, b = 1, ...c) { await x; for await (const q of z); using r = s; await using t = u }',
  ],
  module: [
    'import a, { b as c } from "x" with { type: "json" }; import * as d from "y"; export { c }; export * as q from "z"; export * from "w"; export default 1',
    'export let v = 1; export { r as s } from "t"; import.meta; await 1',
  ],
};
/** The members of a node that are no children though they are objects. */
const NO_CHILD = new Set(['regex', 'value of TemplateElement', 'value of Literal']);

/** @param {any} value a member of a node */
const isNode = (value) => typeof value?.type === 'string';

/**
 * @param {any} node of acorn's tree, whose members are to be found
 * @param {(node: any, keys: string[]) => void} note
 */
function walk(node, note) {
  const keys = Object.keys(node).filter((key) => typeof node[key] === 'object' && node[key] !== null && !NO_CHILD.has(key) && !NO_CHILD.has(`${key} of ${node.type}`));
  note(node, keys);
  for (const key of keys) [node[key]].flat().filter(isNode).forEach((child) => walk(child, note));
}

test('all children of all types of nodes', () => {
  /** @type {Set<string>} */
  const met = new Set();
  for (const kind of /** @type {const} */ (['script', 'module'])) {
    for (const code of SAMPLES[kind]) {
      walk(parse(code, kind), (node, keys) => {
        met.add(node.type);
        const known = KEYS[/** @type {keyof typeof KEYS} */ (node.type)];
        assert.ok(known, `${node.type} is known`);
        assert.deepStrictEqual(keys.filter((key) => !known.includes(key)), [], node.type);
      });
    }
  }
  assert.deepStrictEqual(Object.keys(KEYS).filter((type) => !met.has(type)), ['ParenthesizedExpression', 'ReturnStatement'].filter((type) => !met.has(type)));
});
