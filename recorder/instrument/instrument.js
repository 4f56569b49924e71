'use strict';
// Marks a script, a module or the text of a handler attribute: its reads and writes, and the start (after directives, as 'use strict', and a hashbang `#!`) and
// end of its run. What is inserted calls the helpers of page/helpers/ and is between delimiters, so that the page sees its own text in `toString`.

const { quote } = require('./marks/quote.js');
const { IDLE } = require('./marks/helpers.js');
const { mayWait } = require('./syntax/children.js');
const { importsOf, exportsOf, sourcesOf } = require('./syntax/imports.js');
const { libraryParts } = require('./syntax/library-parts.js');
const { parse, faultOf } = require('./syntax/parse.js');
const { topScope } = require('./syntax/scopes.js');
const { CallMarks } = require('./insert/call-marks.js');
const { ClosureVariables } = require('./walk/closures.js');
const { lookAhead } = require('./walk/look.js');
const { KEPT } = require('./insert/marks.js');
const { Variables } = require('./walk/variables.js');
const { WindowMarks } = require('./insert/window-marks.js');

/**
 * @typedef {import('./syntax/types').Program} Program
 * @typedef {import('./syntax/types').Options} Options
 * @typedef {import('./syntax/types').Statement} Statement
 * @typedef {import('./syntax/scopes').Scope} Scope
 * @typedef {import('./insert/marks').Marks} Marks
 * @typedef {{name: string, isVar: boolean}[]} Taken names of the browser that a script takes for its own
 */

/**
 * The text of a `javascript:` address can be the page that the browser shows, so only `use strict` is a directive there.
 * @param {Statement} statement
 * @param {Options['kind']} kind
 */
const isDirective = (statement, kind) => statement.type === 'ExpressionStatement'
  && (kind === 'address' ? statement.directive === 'use strict' : statement.directive !== undefined);

/**
 * Whether a statement of a module runs nothing: an import, names to export, a function.
 * @param {Statement} statement
 */
function runsNothing(statement) {
  if (/^(?:ImportDeclaration|ExportAllDeclaration|FunctionDeclaration)$/.test(statement.type)) return true;
  if (statement.type !== 'ExportNamedDeclaration' && statement.type !== 'ExportDefaultDeclaration') return false;
  return !statement.declaration || statement.declaration.type === 'FunctionDeclaration';
}

/**
 * The imports and exports at the start of a module, up to the last one before code runs. Without marks before them, a module that a page loads as a script
 * fails with the browser's own words.
 * @param {Statement[]} body
 */
function leadingImports(body) {
  const first = body.findIndex((statement) => !runsNothing(statement));
  const leading = first < 0 ? body : body.slice(0, first);
  const last = leading.map(({ type }) => type !== 'FunctionDeclaration').lastIndexOf(true);
  return leading.slice(0, last + 1);
}

/**
 * Where the run's first call can be (in a function: insert/inserter.js, `startOfStatements`): after the directives (`'use strict'`), which count only at
 * the start.
 * @param {Program} program
 * @param {string} code
 * @param {Options['kind']} kind
 */
function startOfRun({ body }, code, kind) {
  const first = body.findIndex((statement) => !isDirective(statement, kind));
  const directives = first < 0 ? body : body.slice(0, first);
  const imports = kind === 'module' ? leadingImports(body.slice(directives.length)) : [];
  const before = [...directives, ...imports];
  if (before.length) return before[before.length - 1].end;
  if (body.length) return body[0].start;
  return code.startsWith('#!') || code.includes('<!--') ? code.length : 0;
}

/**
 * The functions that a script declares, with their sites: they become global variables before its first statement runs.
 * @param {Options} options
 * @param {Program} program
 * @param {Scope} scope
 */
function declaredFunctions({ builtins, site }, { body }, scope) {
  const names = body.flatMap((statement) => (statement.type === 'FunctionDeclaration' && statement.id ? [statement.id] : []));
  return names.filter(({ name }) => !builtins.has(name) && scope.where(name) === 'global').map(({ name, start }) => [name, site(start)]);
}

/**
 * A class that a script declares becomes a global variable where it is.
 * @param {Marks} marks
 * @param {Statement} statement
 * @param {Scope} scope
 */
function markClass({ variables, inserter, options }, statement, scope) {
  if (statement.type !== 'ClassDeclaration' || !statement.id || options.kind === 'handler') return;
  const write = variables.call('w', statement.id.name, scope, statement.id.start);
  if (write) inserter.insert(statement.end, `;${write},${statement.id.name});`);
}

/**
 * The code at the start of a run: the call by which the page's half learns which script, module, handler or address begins.
 * @param {Options} options
 * @param {Program} program
 * @param {Scope} scope
 * @param {Marks} marks
 * @param {Taken} taken
 */
function beginCall(options, program, scope, { variables }, taken) {
  const site = options.site(0);
  if (options.kind === 'handler') return `;__er.handlerBegins(this,event,${quote(options.type)});try{`;
  if (options.kind === 'address') return ';__er.addressBegins();try{';
  if (options.kind === 'module') {
    const kept = mayWait(program) ? `var ${KEPT};` : '';
    const sources = sourcesOf(program);
    const before = sources.length ? `,${quote(sources)}` : '';
    return `;${IDLE}__er.moduleBegins(import.meta.url,${site}${before});${kept}${variables.declareModule()}${variables.declareExports()}`;
  }
  const functions = declaredFunctions(options, program, scope);
  const own = taken.length ? `,${JSON.stringify(taken.map(({ name, isVar }) => [name, isVar]))}` : '';
  return `;${IDLE}__er.scriptBegins(globalThis.document&&document.currentScript,${site},${JSON.stringify(functions)}${own});`;
}

/**
 * The call at the end of a run: also if it throws, for a handler and an address.
 * @param {Options} options
 */
function endCall({ kind }) {
  if (kind === 'handler') return '}finally{__er.handlerEnds()}';
  if (kind === 'address') return '}finally{__er.addressEnds()}';
  return kind === 'module' ? ';__er.moduleEnds(import.meta.url);' : ';__er.scriptEnds();';
}

/**
 * The walk that marks a program.
 * @param {string} code
 * @param {Options} options
 * @param {Program} program
 * @param {Scope} top
 * @returns {Marks}
 */
function marksOf(code, options, program, top) {
  const imports = importsOf(program);
  const module = options.kind === 'module' ? { scope: top, imports, exported: exportsOf(program, imports) } : null;
  if (options.depth !== 'objects') return new WindowMarks(code, options, new Variables(options, module));
  lookAhead(program, top, module, !!options.keepsAll);
  return new CallMarks(code, options, new ClosureVariables(options, module, top));
}

/**
 * All insertions into a text, in ascending order.
 * @param {string} code
 * @param {Options} options
 * @param {Program} program
 */
function editsOf(code, options, program) {
  const taken = options.kind === 'script' && options.builtins.take ? options.builtins.take(program) : [];
  const top = topScope(program, options.kind);
  const marks = marksOf(code, options, program, top);
  const start = startOfRun(program, code, options.kind);
  marks.inserter.insert(start, beginCall(options, program, top, marks, taken));
  for (const statement of program.body) {
    marks.visit(statement, top);
    markClass(marks, statement, top); // so its mark is before those at the start of the next statement
  }
  marks.inserter.insert(program.body.at(-1)?.end ?? start, endCall(options));
  return marks.inserter.edits;
}

/**
 * The edits that mark a script, a module or the text of a handler attribute; or why it stays as it is. Called by kept-marks.js and warm-up.js.
 * @param {string} code
 * @param {Options} options
 * @returns {{edits: import('./syntax/types').Edit[], fault?: undefined} | {edits?: undefined, fault: import('./syntax/types').Fault}}
 */
function instrument(code, options) {
  try {
    const program = parse(code, options.kind);
    const edits = editsOf(code, options, program);
    if (options.library) for (const { start, end, name } of libraryParts(code, program)) options.library(start, end, name);
    return { edits };
  } catch (error) {
    const fault = faultOf(error, code);
    if (!fault) throw error;
    return { fault };
  }
}

module.exports = { instrument };
