'use strict';
// What a module imports and exports: an imported name is a variable of the module that exports it. instrument.js reads it, for the
// marks (../walk/variables.js) and for the start of a module's run, which names the modules that run before it.

const { addDeclared } = require('./names.js');

/**
 * @typedef {import('./types').Program} Program
 * @typedef {import('./types').Identifier} Identifier
 * @typedef {import('./types').Literal} Literal
 * @typedef {{from: string, name: string}} Imported another module, and the name of its variable there; `*` is the module as a whole
 * @typedef {object} Exported
 * @property {[string, string][]} own the module's own variables, each with the name that others know, then its own name
 * @property {{name: string, from: string, there: string}[]} others what it passes on
 * @property {string[]} wholes the modules of which it passes on all
 */

/** In place of a variable's name: the import is the module as a whole (`import * as a from ..`), and a read of it is no access. */
const WHOLE = '*';

/**
 * @param {Identifier|Literal} node
 * @returns {string}
 */
const nameOf = (node) => (node.type === 'Identifier' ? node.name : String(node.value));

/**
 * The name that the other module has for an import.
 * @param {import('./types').ImportedName} specifier
 */
function nameInOther(specifier) {
  if (specifier.type === 'ImportNamespaceSpecifier') return WHOLE;
  return specifier.type === 'ImportDefaultSpecifier' ? 'default' : nameOf(specifier.imported);
}

/**
 * What a module imports.
 * @param {Program} program
 * @returns {Map<string, Imported>} by the name in the module
 */
function importsOf({ body }) {
  /** @type {Map<string, Imported>} */
  const imports = new Map();
  for (const statement of body) {
    if (statement.type !== 'ImportDeclaration') continue;
    const from = nameOf(statement.source);
    for (const specifier of statement.specifiers) imports.set(specifier.local.name, { from, name: nameInOther(specifier) });
  }
  return imports;
}

/**
 * The names that an exported declaration declares.
 * @param {import('./types').VariableDeclaration|import('./types').FunctionDeclaration|import('./types').ClassDeclaration} declaration
 */
function namesOfDeclaration(declaration) {
  if (declaration.type !== 'VariableDeclaration') return declaration.id ? [declaration.id.name] : [];
  /** @type {Set<string>} */
  const names = new Set();
  addDeclared(declaration, names);
  return [...names];
}

/**
 * What `export {..}` and `export ..` add to the exports of a module: its own variables, and names that it only passes on from another module.
 * @param {import('./types').ExportNamedDeclaration} statement
 * @param {Map<string, Imported>} imports
 * @param {Exported} exported gets what it exports
 */
function addNamed({ declaration, specifiers, source }, imports, { own, others }) {
  if (declaration) namesOfDeclaration(declaration).forEach((name) => own.push([name, name]));
  for (const specifier of specifiers) {
    const [name, local] = [nameOf(specifier.exported), nameOf(specifier.local)];
    const imported = source ? { from: nameOf(source), name: local } : imports.get(local);
    if (!imported) own.push([name, local]);
    else if (source || imported.name !== WHOLE) others.push({ name, from: imported.from, there: imported.name });
  }
}

/**
 * What a module exports: variables of its own, those of other modules, and whole modules (`export * from`).
 * @param {Program} program
 * @returns {Exported}
 */
function exportsOf({ body }, imports = importsOf(/** @type {Program} */ ({ body }))) {
  /** @type {Exported} */
  const exported = { own: [], others: [], wholes: [] };
  for (const statement of body) {
    if (statement.type === 'ExportAllDeclaration' && !statement.exported) exported.wholes.push(nameOf(statement.source));
    else if (statement.type === 'ExportNamedDeclaration') addNamed(statement, imports, exported);
    else if (statement.type === 'ExportDefaultDeclaration') {
      const { declaration } = statement;
      if ('id' in declaration && declaration.id) exported.own.push(['default', declaration.id.name]);
    }
  }
  return exported;
}

/**
 * The modules that run before one, as it names them.
 * @param {Program} program
 */
function sourcesOf({ body }) {
  /** @type {Set<string>} */
  const sources = new Set();
  for (const statement of body) {
    if ('source' in statement && statement.source) sources.add(nameOf(statement.source));
  }
  return [...sources];
}

module.exports = { importsOf, exportsOf, sourcesOf, WHOLE };
