'use strict';
// Names of the browser that a page takes for variables of its own: `var status`, `function find()`, `class Animation`. From then on they are global
// variables like others, in all scripts of the page. Before that, these are properties of the window, and no variables.

const { digestOf } = require('../common/digest.js');
const { addDeclared, addHoisted, addLexical } = require('./syntax/names.js');

/**
 * @typedef {import('./syntax/types').Program} Program
 * @typedef {import('./syntax/types').Expression} Expression
 */

/** `var self = this` and the like reach the window by the browser's own name. */
const IS_WINDOW = /^(window|self|globalThis)$/;
/** No script can put anything in the place of these. */
const FIXED = ['window', 'document', 'location', 'top'];

/** @param {Expression|null} node */
const isWindow = (node) => !!node && (node.type === 'ThisExpression' || (node.type === 'Identifier' && IS_WINDOW.test(node.name)));

/**
 * The names that a script declares at its top, and whether by `var`.
 * @param {Program} program
 */
function declaredNames({ body }) {
  /** @type {Set<string>} */
  const all = new Set();
  /** @type {Set<string>} */
  const variables = new Set();
  body.forEach((statement) => addHoisted(statement, all));
  addLexical(body, all);
  for (const statement of body) {
    if (statement.type !== 'VariableDeclaration') continue;
    for (const { id, init } of statement.declarations) {
      if (id.type === 'Identifier' && isWindow(init)) all.delete(id.name);
    }
    if (statement.kind === 'var') addDeclared(statement, variables);
  }
  FIXED.forEach((name) => all.delete(name));
  return [...all].map((name) => ({ name, isVar: variables.has(name) }));
}

/** One for each run, made by `Sources`: it knows what the scripts that are instrumented by now have declared. */
class BrowserNames {
  constructor() {
    /** @type {Set<string>} */
    this.names = new Set();
    /** Whether the names are all of the browser's. */
    this.areAll = true;
    /**
     * Those that scripts have taken.
     * @type {Set<string>}
     */
    this.own = new Set();
    /** What `signature` answered last, and for how many own names. */
    this.lastSigned = { own: -1, text: '' };
  }

  /**
   * The browser's names are known: all of them, or those that are known without the browser.
   * @param {Iterable<string>} names
   */
  set(names, areAll = true) {
    this.names = new Set(names);
    this.areAll = areAll;
    this.lastSigned.own = -1;
  }

  /** A text that is the same if `has` and `take` answer the same. */
  signature() {
    if (this.lastSigned.own === this.own.size) return this.lastSigned.text;
    const names = [...this.names].sort();
    this.lastSigned = { own: this.own.size, text: digestOf(JSON.stringify([this.areAll, names, names.filter((name) => this.own.has(name))])) };
    return this.lastSigned.text;
  }

  /**
   * Whether a name is one of the browser's that no script of the page has declared.
   * @param {string} name
   */
  has(name) {
    return this.names.has(name) && !this.own.has(name);
  }

  /**
   * Takes the names that a script declares at its top and that are the browser's, or might be while not all of these are known.
   * @param {Program} program
   * @returns {{name: string, isVar: boolean}[]} a `var` takes a name only if the browser lets it be written
   */
  take(program) {
    const taken = declaredNames(program).filter(({ name }) => this.names.has(name) || !this.areAll);
    this.takeNames(taken.map(({ name }) => name));
    return taken;
  }

  /**
   * Takes names that `take` has given for the same text.
   * @param {string[]} names
   */
  takeNames(names) {
    names.forEach((name) => this.own.add(name));
  }
}

module.exports = { BrowserNames };
