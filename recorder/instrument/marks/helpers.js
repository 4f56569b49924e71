'use strict';
// The helpers of `__er` that marks call: which of its arguments each returns, and helpers that do nothing else.
//
// The helpers by file in page/helpers/; where marks call them, `grep -rn '__er.NAME(' recorder/instrument` says, and for letters from a table the
// tables at the top of insert/member-marks.js and insert/call-marks.js, and `Variables.call` in walk/variables.js.
//
// globals.js     global variables     r reads, w writes, u reads and writes, U counts (`n++` whose value nobody uses)
//                in handlers' texts   rh, wh, uh, Uh: the same, if the name is none of the element's, the form's or the document's
//                of an object `a.x`   ro, wo, uo: the same, if the object is the window; fo: a write, once its value is there
//                of modules           rm, wm, um: the same of a variable of the module; V reads an imported name; E notes what a module exports
// properties.js  by a name            p reads, q writes, b reads and writes, B counts, g deletes; f writes, once the value is there
//                by a key             k, l, j, J, h, fk: the same; o: `key in object`
//                of `super`           sp by a name, sk by a key: both read
//                of `new`             N notes the object that a call makes
// scopes.js      closure variables    s makes the scope of a call; v reads, z writes, y reads and writes, Y counts
// wholes.js      whole objects        n their names, e all properties (a spread), i all items (a loop), d what a pattern takes,
//                c what `Object.assign` copies, D what `Object.defineProperties` defines
//                methods              m of arrays, maps and elements; a their first argument, if it is a key
//                with `--keep`        L a literal, F the first value of a closure variable
// awaits.js      `await`              as keeps who waits, aw takes the promise, ao the value with which the code goes on
// runs.js        runs                 scriptBegins and scriptEnds, module.., handler.. (of an attribute), address.. (`javascript:`): a run begins, ends
//                                     ai the name in `import()`, ap its promise; made: the text of `eval` and `new Function`; un: the object of a `with`;
//                                     po: the last argument of `postMessage`
// helpers.js     `t` is no helper: marks keep an object there for the next mark.

/**
 * The names of the helpers that return their first argument, those that return their second one, and so on: the call is around this argument. A document
 * that is not recorded, and a worker, have helpers that do this only.
 */
const ANSWERS = [
  'ro wo uo p q b B g m n i e d o L made un po ai ap aw ao',
  'k l j J h a c D sk',
  'w u U',
  'wh uh Uh wm um fo f fk z F',
  'y Y',
];
const WITHOUT_ANSWER = 'r rh rm v V s sp N E as scriptBegins scriptEnds moduleBegins moduleEnds insertedModule handlerBegins handlerEnds addressBegins addressEnds';

/**
 * @param {string} names
 * @param {string} value
 */
const membersOf = (names, value) => names.split(' ').map((name) => `${name}:${value}`);

/** A script may also be imported by a worker, in which there is no recorder: there its marks do nothing. */
function idleHelpers() {
  const members = ANSWERS.flatMap((names, k) => membersOf(names, `$${k}`));
  const functions = ANSWERS.map((names, k) => `$${k}=(${ANSWERS.slice(0, k + 1).map((all, n) => `a${n}`).join()})=>a${k}`);
  return `globalThis.__er||(globalThis.__er=(()=>{const ${functions.join()},$=()=>{};return{${[...members, ...membersOf(WITHOUT_ANSWER, '$')].join()},t:0,__proto__:null}})());`;
}

module.exports = { ANSWERS, WITHOUT_ANSWER, IDLE: idleHelpers() };
