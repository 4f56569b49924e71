'use strict';
// The tables of the recorder's own modules, read from their texts: constants at the top of a module, and the names that its hooks replace. For
// recorded-names.js; the page's modules cannot be imported here, because they need a window.

const fs = require('node:fs');
const path = require('node:path');
const vm = require('node:vm');
const acorn = require('/usr/share/nodejs/acorn');

const RECORDER = path.join(__dirname, '..');
/** Functions that put a hook in the place of something of the browser. */
const IS_HOOKING = /^#?(replace\w*|putConstructor)$/;

/** @typedef {import('../instrument/syntax/types').Node} Node */

/** @type {Map<string, {[name: string]: any}>} the values of constants, which are of any kind */
const known = new Map();

/** @param {string} file */
function programOf(file) {
  const text = fs.readFileSync(path.join(RECORDER, file), 'utf8');
  const program = /** @type {any} a tree of acorn's own types */ (acorn.parse(text, { ecmaVersion: 'latest', sourceType: file.startsWith('page/') ? 'module' : 'script' }));
  return { text, program };
}

/**
 * The constants at the top of a module that are made of literals, by name.
 * @param {string} file in recorder/
 * @returns {{[name: string]: any}} of any kind
 */
function constantsOf(file) {
  const before = known.get(file);
  if (before) return before;
  /** @type {{[name: string]: any}} of any kind */
  const constants = {};
  known.set(file, constants);
  const { text, program } = programOf(file);
  const context = vm.createContext({ Set, Map, __proto__: null });
  for (const node of program.body) {
    if (node.type === 'ImportDeclaration') Object.assign(context, constantsOf(path.join(path.dirname(file), node.source.value)));
    for (const { id, init } of node.type === 'VariableDeclaration' ? node.declarations : []) {
      if (!init || id.type !== 'Identifier' || !/^(Literal|ArrayExpression|ObjectExpression|NewExpression)$/.test(init.type)) continue;
      try {
        constants[id.name] = context[id.name] = vm.runInContext(`(${text.slice(init.start, init.end)})`, context);
      } catch { /* it needs a window */ }
    }
  }
  return constants;
}

/** @param {any} node of acorn's own types */
const stringsOf = (node) => (node && node.type === 'ArrayExpression' && node.elements.every((/** @type {any} as above */ one) => one?.type === 'Literal')
  ? node.elements.map((/** @type {any} as above */ { value }) => String(value)) : []);

/**
 * The names that an argument of a hook is: a text, a list of texts, or a name that goes through a list (`each([..], (name) => ..)`).
 * @param {any} argument of acorn's own types
 * @param {any[]} around the nodes around the call, of acorn's own types
 * @param {{[name: string]: any}} constants of any kind
 */
function namesOf(argument, around, constants) {
  if (argument?.type === 'Literal') return typeof argument.value === 'string' ? [argument.value] : [];
  if (argument?.type !== 'Identifier') return stringsOf(argument);
  const loop = around.find(({ type, callee, arguments: args }) => type === 'CallExpression' && callee.name === 'each' && args[1]?.params?.[0]?.name === argument.name);
  const list = loop?.arguments[0];
  const table = list?.type === 'Identifier' ? constants[list.name] : null;
  return Array.isArray(table) ? table.filter((one) => typeof one === 'string') : stringsOf(list);
}

/**
 * Visits each node of a tree, with the nodes around it from the inside to the outside.
 * @param {any} node of acorn's own types
 * @param {any[]} around as above
 * @param {(node: any, around: any[]) => void} see as above
 */
function visit(node, around, see) {
  if (typeof node.type === 'string') see(node, around);
  for (const child of Object.values(node)) {
    if (child && typeof child === 'object') visit(child, typeof node.type === 'string' ? [node, ...around] : around, see);
  }
}

/**
 * The names of the browser that a module replaces by hooks of its own.
 * @param {string} file in recorder/
 * @returns {string[]}
 */
function hookedBy(file) {
  const { program } = programOf(file);
  const constants = constantsOf(file);
  /** @type {string[]} */
  const names = [];
  visit(program, [], (node, around) => {
    if (node.type !== 'CallExpression' || !IS_HOOKING.test(node.callee.name || node.callee.property?.name || '')) return;
    const second = namesOf(node.arguments[1], around, constants);
    names.push(...(second.length ? second : namesOf(node.arguments[0], around, constants)));
  });
  return [...new Set(names)];
}

module.exports = { constantsOf, hookedBy };
