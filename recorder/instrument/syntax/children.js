'use strict';
// Which members of a node of acorn's tree contain further nodes, and what an expression contains.

/**
 * @typedef {import('./types').Node} Node
 * @typedef {Node | null | undefined | (Node | null)[]} Child
 */

/**
 * The keys of the children of each type of node, in the order in which acorn makes them (children.test.js compares).
 * @type {Record<Node['type'], readonly string[]>}
 */
const KEYS = {
  Program: ['body'],
  Identifier: [], PrivateIdentifier: [], Literal: [], ThisExpression: [], Super: [], TemplateElement: [],
  TemplateLiteral: ['expressions', 'quasis'],
  MetaProperty: ['meta', 'property'],
  ArrayExpression: ['elements'],
  ObjectExpression: ['properties'],
  Property: ['key', 'value'],
  SpreadElement: ['argument'],
  MemberExpression: ['object', 'property'],
  CallExpression: ['callee', 'arguments'],
  NewExpression: ['callee', 'arguments'],
  ChainExpression: ['expression'],
  ImportExpression: ['source', 'options'],
  TaggedTemplateExpression: ['tag', 'quasi'],
  UnaryExpression: ['argument'],
  UpdateExpression: ['argument'],
  BinaryExpression: ['left', 'right'],
  LogicalExpression: ['left', 'right'],
  AssignmentExpression: ['left', 'right'],
  ConditionalExpression: ['test', 'consequent', 'alternate'],
  SequenceExpression: ['expressions'],
  AwaitExpression: ['argument'],
  YieldExpression: ['argument'],
  ParenthesizedExpression: ['expression'],
  FunctionDeclaration: ['id', 'params', 'body'],
  FunctionExpression: ['id', 'params', 'body'],
  ArrowFunctionExpression: ['id', 'params', 'body'],
  ClassDeclaration: ['id', 'superClass', 'body'],
  ClassExpression: ['id', 'superClass', 'body'],
  ClassBody: ['body'],
  MethodDefinition: ['key', 'value'],
  PropertyDefinition: ['key', 'value'],
  StaticBlock: ['body'],
  ObjectPattern: ['properties'],
  ArrayPattern: ['elements'],
  RestElement: ['argument'],
  AssignmentPattern: ['left', 'right'],
  ExpressionStatement: ['expression'],
  BlockStatement: ['body'],
  EmptyStatement: [], DebuggerStatement: [],
  WithStatement: ['object', 'body'],
  ReturnStatement: ['argument'],
  ThrowStatement: ['argument'],
  LabeledStatement: ['body', 'label'],
  BreakStatement: ['label'],
  ContinueStatement: ['label'],
  IfStatement: ['test', 'consequent', 'alternate'],
  SwitchStatement: ['discriminant', 'cases'],
  SwitchCase: ['consequent', 'test'],
  TryStatement: ['block', 'handler', 'finalizer'],
  CatchClause: ['param', 'body'],
  WhileStatement: ['test', 'body'],
  DoWhileStatement: ['body', 'test'],
  ForStatement: ['init', 'test', 'update', 'body'],
  ForInStatement: ['left', 'right', 'body'],
  ForOfStatement: ['left', 'right', 'body'],
  VariableDeclaration: ['declarations'],
  VariableDeclarator: ['id', 'init'],
  ImportDeclaration: ['specifiers', 'source'],
  ImportSpecifier: ['imported', 'local'],
  ImportDefaultSpecifier: ['local'],
  ImportNamespaceSpecifier: ['local'],
  ExportNamedDeclaration: ['declaration', 'specifiers', 'source'],
  ExportSpecifier: ['local', 'exported'],
  ExportDefaultDeclaration: ['declaration'],
  ExportAllDeclaration: ['exported', 'source'],
};

/**
 * The keys under which a node may have children. Called by library-parts.js and instrument/walk/expressions.js.
 * @param {{type: string}} node
 * @returns {readonly string[]}
 */
const keysOf = (node) => KEYS[/** @type {Node['type']} */ (node.type)];

/**
 * Called by library-parts.js and instrument/walk/expressions.js.
 * @param {Node} node
 * @param {string} key one of its type
 * @returns {Child}
 */
const childAt = (node, key) => /** @type {{[key: string]: Child}} */ (/** @type {unknown} */ (node))[key];

/**
 * Whether a test holds for one of the children of a node.
 * @param {Node} node
 * @param {(child: Node) => boolean} holds
 * @returns {boolean}
 */
function someChild(node, holds) {
  return keysOf(node).some((key) => {
    const child = childAt(node, key);
    if (Array.isArray(child)) return child.some((item) => !!item && holds(item));
    return !!child && holds(child);
  });
}

const FUNCTIONS = new Set(['FunctionDeclaration', 'FunctionExpression', 'ArrowFunctionExpression']);
const RUNS = new Set(['CallExpression', 'NewExpression', 'TaggedTemplateExpression', 'AwaitExpression', 'YieldExpression', 'ImportExpression']);

/**
 * Called by instrument/insert/marks.js, instrument/insert/window-marks.js and library-parts.js.
 * @param {Node} node
 * @returns {node is import('./types').FunctionNode}
 */
const isFunction = (node) => FUNCTIONS.has(node.type);

/**
 * Whether the code of a node may wait, as for a promise; that of the functions in it does not count. Called by instrument/insert/marks.js,
 * instrument/instrument.js and instrument/walk/walker.js.
 * @param {Node} node
 * @returns {boolean}
 */
function mayWait(node) {
  if (node.type === 'AwaitExpression' || node.type === 'YieldExpression') return true;
  return !isFunction(node) && someChild(node, mayWait);
}

/**
 * Whether other code may run while an expression is evaluated. Called by instrument/insert/value-marks.js.
 * @param {Node} node
 * @returns {boolean}
 */
function mayRun(node) {
  if (RUNS.has(node.type)) return true;
  return !isFunction(node) && someChild(node, mayRun);
}

module.exports = { KEYS, keysOf, childAt, isFunction, mayWait, mayRun };
