'use strict';
// Marked code does what it did: pieces of code whose outcome must be the same with marks and without. No browser; the recorder's own
// helpers run in a world of their own.

const assert = require('node:assert');
const fs = require('node:fs');
const path = require('node:path');
const vm = require('node:vm');
const { test } = require('node:test');
const { bundled } = require('../recording/bundle.js');
const { EditedText } = require('../instrument/edits.js');
const { instrument } = require('../instrument/instrument.js');
const { withoutMarks } = require('../instrument/marks/delimiters.js');
const { settingsCode } = require('../recording/page-script.js');
const { pieces } = require('./pieces.js');
const { further } = require('./pieces-further.js');

const GIVEN = settingsCode([], { depth: 'objects', keepsAll: true });
const HELPERS = `${bundled(path.join(__dirname, 'helpers-world.js'), ['window', 'given'])}(globalThis, ${GIVEN}).helpersOfWorld(globalThis)`;

/**
 * The helpers, in a world, with a recording in which one action runs.
 * @param {vm.Context} context
 */
const helpersIn = (context) => vm.runInContext(HELPERS, context);

/**
 * How code is marked: the options of `instrument`, and whether each call of a helper comes in an action of its own.
 * @typedef {Pick<import('../instrument/syntax/types').Options, 'depth'|'keepsAll'> & {isApart?: boolean}} Way
 */

/** @type {{[name: string]: Way, objects: Way}} */
const WAYS = {
  'global variables': { depth: 'globals' },
  objects: { depth: 'objects' },
  'the whole recording': { depth: 'objects', keepsAll: true },
  'an action for each access': { depth: 'objects', isApart: true },
};

const BEGINS_ACTION = /__er\.([pqbgkljhvyzdinem]|fk?)\(/g;

/**
 * @param {string} code
 * @param {Way} way
 */
function markedText(code, { isApart, ...options }) {
  let sites = 0;
  const result = instrument(code, { kind: 'script', builtins: new Set(['say', 'Math', 'Object']), site: () => sites++, ...options });
  if (result.fault) throw new assert.AssertionError({ message: result.fault.message });
  const { text } = new EditedText(code, result.edits);
  assert.strictEqual(withoutMarks(text), code);
  return isApart ? text.replace(BEGINS_ACTION, (call) => call.replace('__er.', '(__er.act(),__er).')) : text;
}

/**
 * What a piece of code reports with `say`, and how it ends; with marks in one of the WAYS.
 * @param {string} code
 * @param {Way} [way]
 */
async function outcome(code, way) {
  /** @type {string[]} */
  const said = [];
  const context = vm.createContext({ TextEncoder, say: (/** @type {unknown[]} */ ...words) => { said.push(words.map((word) => textOf(word)).join(' ')); } });
  if (way) Object.defineProperty(context, '__er', { value: helpersIn(context), configurable: true });
  try {
    vm.runInContext(way ? markedText(code, way) : code, context);
    for (let k = 0; k < 60; k++) await null;
  } catch (error) {
    if (error instanceof assert.AssertionError) throw error;
    const { name, message } = /** @type {Error} */ (error); // of the code's own world
    said.push(`throws ${name}: ${messageOf(message)}`);
  }
  return said;
}

/**
 * What a message says, without the code that some contain: that may have marks.
 * @param {string} message
 */
function messageOf(message) {
  return message.replace(/^.*( is not (?:a function|iterable|a constructor)).*$/, '$1').replace(/^(Cannot destructure .*? of ').*(' as it is)/, '$1..$2');
}

/** @param {unknown} word */
function textOf(word) {
  if (typeof word === 'symbol' || typeof word === 'function') return typeof word === 'symbol' ? String(word) : `function ${word.name}`;
  if (typeof word === 'string') return JSON.stringify(messageOf(word));
  if (typeof word === 'bigint') return `${word}n`;
  if (Object.is(word, -0)) return '-0';
  try {
    return typeof word === 'object' ? JSON.stringify(word) : String(word);
  } catch {
    return 'object';
  }
}

for (const [name, code] of Object.entries({ ...pieces, ...further })) {
  test(`the same: ${name}`, async () => {
    const expected = await outcome(code);
    assert.ok(expected.length, 'it says something');
    for (const [marks, way] of Object.entries(WAYS)) assert.deepStrictEqual(await outcome(code, way), expected, marks);
  });
}

/** acorn reads the other pieces. */
test('the same: a whole program', async () => {
  const acorn = fs.readFileSync('/usr/share/nodejs/acorn/dist/acorn.js', 'utf8');
  const read = `for (const code of ${JSON.stringify(Object.values(pieces))}) say(module.exports.parse(code, { ecmaVersion: 2022, locations: true }))`;
  const code = `var exports = {}, module = { exports };\n${acorn}\n${read}`;
  const expected = await outcome(code);
  assert.strictEqual(expected.length, Object.keys(pieces).length);
  assert.deepStrictEqual(await outcome(code, WAYS.objects), expected);
});
