'use strict';
// The names that patterns bind (destructuring, also of parameters) and that statements declare.

/**
 * @typedef {import('./types').Pattern} Pattern
 * @typedef {import('./types').Statement} Statement
 * @typedef {import('./types').VariableDeclaration} VariableDeclaration
 * @typedef {import('./types').Expression} Expression
 */

/**
 * Adds the names that a pattern binds, as `a` and `b` of `{a, x: [b]}`, to a set. Called by scopes.js.
 * @param {Pattern|null} pattern
 * @param {Set<string>} names
 * @returns {void}
 */
function addNames(pattern, names) {
  if (!pattern) return;
  switch (pattern.type) {
    case 'Identifier': names.add(pattern.name); break;
    case 'ObjectPattern': pattern.properties.forEach((property) => addNames(property.type === 'Property' ? property.value : property, names)); break;
    case 'ArrayPattern': pattern.elements.forEach((element) => addNames(element, names)); break;
    case 'RestElement': addNames(pattern.argument, names); break;
    case 'AssignmentPattern': addNames(pattern.left, names); break;
    default: // a member binds no name
  }
}

/**
 * The names that a pattern binds.
 * @param {Pattern|null} pattern
 * @returns {string[]}
 */
function namesOfPattern(pattern) {
  if (!pattern) return [];
  if (pattern.type === 'Identifier') return [pattern.name];
  /** @type {Set<string>} */
  const names = new Set();
  addNames(pattern, names);
  return [...names];
}

/**
 * Called by instrument/own-names.js and imports.js.
 * @param {VariableDeclaration} declaration
 * @param {Set<string>} names
 */
function addDeclared({ declarations }, names) {
  for (let k = 0; k < declarations.length; k++) addNames(declarations[k].id, names);
}

/**
 * @param {Statement[]} statements
 * @param {Set<string>} names
 */
function addHoistedOfAll(statements, names) {
  for (let k = 0; k < statements.length; k++) addHoisted(statements[k], names);
}

/**
 * Adds the `var` names of a statement, and its functions in blocks, but nothing of inner functions. A `var` is in a statement, and never in an
 * expression. Called by instrument/own-names.js and scopes.js.
 * @param {Statement|Expression|Pattern|null} statement
 * @param {Set<string>} names
 * @returns {void}
 */
function addHoisted(statement, names) {
  if (!statement) return;
  switch (statement.type) {
    case 'FunctionDeclaration': addNames(statement.id, names); break;
    case 'VariableDeclaration': if (statement.kind === 'var') addDeclared(statement, names); break;
    case 'BlockStatement': addHoistedOfAll(statement.body, names); break;
    case 'IfStatement': addHoisted(statement.consequent, names); addHoisted(statement.alternate, names); break;
    case 'ForStatement': addHoisted(statement.init, names); addHoisted(statement.body, names); break;
    case 'ForInStatement': case 'ForOfStatement': addHoisted(statement.left, names); addHoisted(statement.body, names); break;
    case 'WhileStatement': case 'DoWhileStatement': case 'LabeledStatement': case 'WithStatement': addHoisted(statement.body, names); break;
    case 'TryStatement':
      addHoisted(statement.block, names);
      addHoisted(statement.handler && statement.handler.body, names);
      addHoisted(statement.finalizer, names);
      break;
    case 'SwitchStatement': statement.cases.forEach(({ consequent }) => addHoistedOfAll(consequent, names)); break;
    default: // others contain no statements
  }
}

/**
 * Whether a statement declares something for its own block only. Called by scopes.js.
 * @param {Statement} statement
 */
function declaresForBlock(statement) {
  if (statement.type === 'VariableDeclaration') return statement.kind !== 'var';
  return statement.type === 'ClassDeclaration' || statement.type === 'FunctionDeclaration';
}

/**
 * Adds the names that the statements of one block declare for this block only. Called by instrument/own-names.js and scopes.js.
 * @param {Statement[]} statements
 * @param {Set<string>} names
 */
function addLexical(statements, names) {
  for (let k = 0; k < statements.length; k++) {
    const statement = statements[k];
    if (!declaresForBlock(statement)) continue;
    if (statement.type === 'VariableDeclaration') addDeclared(statement, names);
    else if (statement.type === 'ClassDeclaration' || statement.type === 'FunctionDeclaration') addNames(statement.id, names);
  }
}

/**
 * Adds all that the code of a function, or of a class's static block, declares. Called by instrument/insert/value-marks.js and scopes.js.
 * @param {Statement[]} statements
 * @param {Set<string>} names
 */
function addNamesOfCode(statements, names) {
  addHoistedOfAll(statements, names);
  addLexical(statements, names);
}

module.exports = { addNames, namesOfPattern, addDeclared, addHoisted, addLexical, addNamesOfCode, declaresForBlock };
