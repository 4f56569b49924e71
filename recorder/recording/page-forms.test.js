'use strict';
// No module of page/ uses what a page can replace: the iterators and methods of lists, texts, patterns and functions, the settings of stacks, and
// getters of the browser that only a few pages' events need.

const assert = require('node:assert');
const fs = require('node:fs');
const path = require('node:path');
const { test } = require('node:test');
const { childAt, isFunction, keysOf } = require('../instrument/syntax/children.js');
const { parse } = require('../instrument/syntax/parse.js');

const PAGE = path.join(__dirname, '..', 'page');
/** The object of each method that a page can replace. */
const REPLACEABLE = new Set([Array, String, RegExp, Function, Number, Promise].flatMap((Class) => Object.getOwnPropertyNames(Class.prototype))
  .filter((name) => !['constructor', 'length', 'name', 'arguments', 'caller'].includes(name)));
const GETTERS = new Set(['prepareStackTrace', 'stackTraceLimit', 'anchorNode', 'anchorOffset', 'focusNode', 'focusOffset', 'selectionStart', 'selectionEnd', 'scrollTop', 'scrollLeft']);

/**
 * Receivers whose method is none of the page's: the recorder's own class, or a class or namespace of core/taken.js.
 * @type {[receiver: RegExp, method: RegExp, reason: string][]}
 */
const OWN = [
  [/^(Object|OBJECT)$/, /^(keys|entries|values)$/, 'taken of the window'],
  [/^(collection|CHANGES|joining)$/, /^forEach$/, 'a taken Map or Set, whose methods nobody can replace'],
  [/^this\.registrations\(.*\)$/, /^values$/, 'a taken Map'],
  [/^recording$/, /^push$/, 'Recording.push'],
  [/^(collections|objects\.trees)$/, /^call$/, 'Collections.call, Trees.call'],
  [/^(this|holder|known|(this\.)?page\.(elements|dispatches)|this\.elements)$/, /^find$/, 'a search of the recorder'],
  [/^this$/, /^replace$/, 'JqueryReady.replace'],
  [/^(this|(this\.)?objects\.trees|object\.globals|this\.page\.globals)$/, /^valueOf$/, 'the value of a variable'],
  [/^TOOLS$/, /^indexOf$/, 'core/marks.js has taken it'],
];
/** Only tools of developers run these (`--chaos`, timeline.js), on pages that they choose; a recording of a user does not. */
const OF_TOOLS = new Set(['tasks/chaos.js', 'recording/stamps.js']);
/** They run before any script of the page. */
const BEFORE_THE_PAGE = new Set(['core/taken.js takeStatics', 'core/taken.js takeClass', 'core/natives.js takeNatives', 'core/natives.js taskPoster']);

/** @param {string} folder @returns {string[]} */
const modulesIn = (folder) => fs.readdirSync(folder, { withFileTypes: true }).flatMap((one) => {
  const file = path.join(folder, one.name);
  return one.isDirectory() ? modulesIn(file) : file.endsWith('.js') ? [file] : [];
});

/**
 * What is wrong with a node, or ''.
 * @param {import('../instrument/syntax/types').Node} node
 * @param {import('../instrument/syntax/types').Node|null} parent
 * @param {string} text
 */
function faultOf(node, parent, text) {
  if (node.type === 'ForOfStatement') return 'for..of uses an iterator';
  if (node.type === 'SpreadElement' && parent?.type !== 'ObjectExpression') return 'a spread uses an iterator';
  if (node.type === 'ArrayPattern') return 'a pattern in brackets uses an iterator';
  if (node.type === 'MemberExpression' && !node.computed && 'name' in node.property && GETTERS.has(node.property.name)) return `.${node.property.name}`;
  if (node.type !== 'CallExpression' || node.callee.type !== 'MemberExpression' || node.callee.computed || !('name' in node.callee.property)) return '';
  const { name } = node.callee.property;
  const receiver = text.slice(node.callee.object.start, node.callee.object.end);
  const isOwn = !REPLACEABLE.has(name) || OWN.some(([owner, method]) => owner.test(receiver) && method.test(name));
  return isOwn ? '' : `${receiver}.${name}()`;
}

/**
 * The forms of a module that a page can change, each with its line. Code outside of functions runs before the page.
 * @param {string} text
 * @param {string} file
 */
function faultsOf(text, file) {
  /** @type {string[]} */
  const faults = [];
  /** @param {import('../instrument/syntax/types').Node} node @param {import('../instrument/syntax/types').Node|null} parent @param {boolean} isInside */
  const visit = (node, parent, isInside) => {
    const named = /** @type {{id?: {name: string}, key?: {name: string}}} */ (node);
    if ((isFunction(node) || node.type === 'MethodDefinition') && BEFORE_THE_PAGE.has(`${file} ${named.id?.name || named.key?.name}`)) return;
    const fault = isInside && faultOf(node, parent, text);
    if (fault) faults.push(`${file}:${text.slice(0, node.start).split('\n').length}: ${fault}`);
    const children = keysOf(node).flatMap((key) => childAt(node, key) || []);
    for (const child of children) if (child) visit(child, node, isInside || isFunction(node));
  };
  visit(parse(text, 'module'), null, false);
  return faults;
}

test('the modules of page/ use nothing that a page can replace', () => {
  const files = modulesIn(PAGE).filter((file) => !OF_TOOLS.has(path.relative(PAGE, file)));
  assert.ok(files.length > 50);
  const faults = files.flatMap((file) => faultsOf(fs.readFileSync(file, 'utf8'), path.relative(PAGE, file)));
  assert.deepStrictEqual(faults, [], 'use core/lists.js, core/strings.js, and apply() with what core/taken.js or core/natives.js took');
});

test('the forms that are found', () => {
  const code = ['for (const a of list) a;', 'f(...list);', '[...list];', 'const [a] = list;', 'list.push(1);', 'text.slice(1);', '/x/.test(text);', 'f.call(this);', 'Error.stackTraceLimit = 1;',
    'element.scrollTop;'];
  for (const line of code) assert.strictEqual(faultsOf(`function run() { ${line} }`, 'a.js').length, 1, line);
  for (const line of ['({ ...facts });', 'const { 0: a } = list;', 'recording.push(1);', 'apply(f, this, []);', 'function f(...rest) {}']) {
    assert.deepStrictEqual(faultsOf(`function run() { ${line} }`, 'a.js'), [], line);
  }
  assert.deepStrictEqual(faultsOf('const list = [...others];', 'a.js'), []);
});
