'use strict';
// The script of page/: a page may put something else in the place of any name of its window, so no module uses such a name. And its clock.

const assert = require('node:assert');
const fs = require('node:fs');
const path = require('node:path');
const { test } = require('node:test');
const vm = require('node:vm');
const { instrument } = require('../instrument/instrument.js');
const { bundled } = require('./bundle.js');
const { pageScript } = require('./page-script.js');

const PAGE = path.join(__dirname, '..', 'page');
const ACCESS = /__er\.\w+\("?([\w$]+)"?,/g;

/**
 * The global variables that a text uses, by the marks that it would get.
 * @param {string} text
 */
function globalsOf(text) {
  const { edits, fault } = instrument(text, { kind: 'script', depth: 'globals', builtins: new Set(), site: () => 0 });
  assert.strictEqual(fault, undefined);
  return new Set(edits.flatMap(({ insert }) => [...insert.matchAll(ACCESS)].map(([, name]) => name)));
}

test('of the window\'s names the script uses that of the window alone: all others come from core/taken.js', () => {
  assert.deepStrictEqual([...globalsOf('(() => { const own = Array.from([1]); return own; })();')], ['Array']);
  assert.deepStrictEqual([...globalsOf(pageScript(['Window'], { depth: 'objects', libraries: /^jquery/i }))], ['window']);
  assert.deepStrictEqual([...globalsOf(pageScript(null, { depth: 'objects', isDriven: true }))], ['window']);
});

test('the settings of a recording are in the script, its modules only once', () => {
  const [plain, replay] = [{}, { holds: [{ id: 1, word: 'set', place: 'a:1:1', way: '', nth: 1 }], fixed: { seed: 7, date: 5 } }]
    .map((options) => pageScript(['Window'], { depth: 'globals', libraries: null, ...options }));
  assert.match(plain, /depth: "globals", [^]*libraries: null, [^]*holds: null, fixed: null/);
  assert.match(replay, /holds: \[\{"id":1,"word":"set"[^]*fixed: \{"seed":7,"date":5\}/);
  assert.strictEqual(plain.split('class Recording').length, 2);
});

test('all modules of page/ are in the script', () => {
  const files = fs.readdirSync(PAGE, { withFileTypes: true }).flatMap((one) => (one.isDirectory() ? fs.readdirSync(path.join(PAGE, one.name)) : [one.name]));
  const text = pageScript([], { depth: 'objects', keepsAll: false, libraries: null });
  assert.doesNotThrow(() => new vm.Script(text));
  assert.strictEqual(text.match(/^const module\d+ = /gm)?.length, files.filter((name) => name.endsWith('.js')).length);
});

test('the clock of a replay has whole milliseconds', () => {
  const context = vm.createContext({ performance: { timeOrigin: 1700000000000.25 } });
  const { fixChance } = vm.runInContext(`${bundled(path.join(PAGE, 'core', 'chance.js'), ['window', 'given'])}(globalThis, {})`, context);
  fixChance(vm.runInContext('globalThis', context), { seed: 1, date: 1600000000000 });
  const told = vm.runInContext('Date.now()', context);
  assert.ok(Number.isInteger(told) && told !== Date.now(), String(told));
});
