'use strict';
// Marks that are kept: the same as marks that are made, from memory and from a folder that other processes, a full disk or a hand have changed.

const assert = require('node:assert');
const fs = require('node:fs');
const os = require('node:os');
const path = require('node:path');
const { test } = require('node:test');
const { CacheFolder } = require('../common/cache-folder.js');
const { COMMON_NAMES } = require('./ahead.js');
const { instrument } = require('./instrument.js');
const { KeptMarks } = require('./kept-marks.js');
const { BrowserNames } = require('./own-names.js');
const { MINIFIED } = require('./warm-up.js');

const FUNCTIONS = 'function shown() { return status; }\nvar status = shown;\nvar text = "\u2028 \\u{1F600} é";\n';
const FILLED = '// more than the shortest text that is kept\n'.repeat(60);
/** @type {{[name: string]: {kind: 'script'|'module', code: string}}} */
const TEXTS = {
  'a library': { kind: 'script', code: fs.readFileSync('/usr/share/nodejs/acorn/dist/acorn.js', 'utf8') },
  'minified code': { kind: 'script', code: MINIFIED.repeat(8) },
  'declared functions, names of the browser': { kind: 'script', code: FUNCTIONS + FILLED },
  'a module': { kind: 'module', code: `import { a } from './a.js';\nexport { b } from './b.js';\nexport let c = a;\nc = import('./d.js');\n${FILLED}` },
  'no JavaScript': { kind: 'script', code: `<!doctype html>\n${FILLED}` },
};

/** @param {{after: (clean: () => void) => void}} t */
function newFolder(t) {
  const folder = fs.mkdtempSync(path.join(os.tmpdir(), 'kept-'));
  t.after(() => fs.rmSync(folder, { recursive: true, force: true }));
  return path.join(folder, 'eventracer');
}

/**
 * What a way to mark a text answers, and all that it reports.
 * @param {typeof instrument} mark
 * @param {{kind: 'script'|'module', code: string}} text
 * @param {string[]} [names] of the browser
 */
function outcome(mark, { kind, code }, names = COMMON_NAMES.concat('status')) {
  const builtins = new BrowserNames();
  builtins.set(names);
  /** @type {unknown[]} */
  const sites = [];
  /** @type {unknown[]} */
  const reported = [];
  const modules = ['./a.js', './b.js', './d.js'];
  const result = mark(code, {
    kind, builtins, depth: 'objects', module: 7,
    site: (offset, about) => 1000 + sites.push([offset, about && { ...about }]),
    numberOfModule: (name) => 20 + modules.indexOf(name),
    named: (...all) => { reported.push(all); },
    library: (...all) => { reported.push(all); },
  });
  return { result: { ...result }, sites, reported, own: [...builtins.own] };
}

for (const [name, text] of Object.entries(TEXTS)) {
  test(`kept marks are those that are made: ${name}`, (t) => {
    const made = outcome(instrument, text);
    const folder = newFolder(t);
    const marks = new KeptMarks(new CacheFolder(folder));
    const kept = () => outcome((code, options) => marks.instrument(code, options), text);
    assert.deepStrictEqual(kept().sites, made.sites);
    assert.deepStrictEqual({ ...kept(), hits: marks.hits }, { ...made, hits: 1 }, 'from memory');
    marks.writeAll();
    const other = new KeptMarks(new CacheFolder(folder));
    const found = outcome((code, options) => other.instrument(code, options), text);
    assert.deepStrictEqual({ ...found, hits: other.hits }, { ...made, hits: 1 }, 'from the folder');
  });
}

test('other names of the browser are another text', (t) => {
  const marks = new KeptMarks(new CacheFolder(newFolder(t)));
  const text = TEXTS['declared functions, names of the browser'];
  const ways = [['status'], ['shown'], ['status', 'shown']].map((names) => outcome((code, options) => marks.instrument(code, options), text, names));
  assert.strictEqual(marks.misses, 3);
  ways.forEach((way, k) => assert.deepStrictEqual(way, outcome(instrument, text, [['status'], ['shown'], ['status', 'shown']][k])));
});

test('a file that is damaged, cut or of another key is marked again, and removed', (t) => {
  const folder = newFolder(t);
  const text = TEXTS['minified code'];
  const made = outcome(instrument, text);
  const first = new KeptMarks(new CacheFolder(folder));
  outcome((code, options) => first.instrument(code, options), text);
  first.writeAll();
  const [name] = fs.readdirSync(folder);
  const file = path.join(folder, name);
  const whole = fs.readFileSync(file);
  for (const damaged of [whole.subarray(0, whole.length - 9), Buffer.from(whole).fill(48, 90, 91), Buffer.alloc(0), Buffer.from('{}')]) {
    fs.writeFileSync(file, damaged);
    const marks = new KeptMarks(new CacheFolder(folder));
    assert.deepStrictEqual(outcome((code, options) => marks.instrument(code, options), text), made);
    assert.deepStrictEqual([marks.hits, fs.existsSync(file)], [0, false]);
  }
  const cache = new CacheFolder(folder);
  cache.write('a'.repeat(64), 'text');
  fs.renameSync(path.join(folder, 'a'.repeat(64)), path.join(folder, 'b'.repeat(64)));
  assert.deepStrictEqual([cache.read('b'.repeat(64)), cache.read('../../etc/passwd')], [null, null]);
});

test('a folder stays small: what was not used for longest goes first', (t) => {
  const cache = new CacheFolder(newFolder(t), 1000);
  const keys = ['1', '2', '3', '4'].map((one) => one.repeat(64));
  keys.forEach((key, k) => {
    cache.write(key, 'x'.repeat(300));
    fs.utimesSync(/** @type {string} */ (cache.fileOf(key)), k + 1, k + 1);
  });
  assert.strictEqual(cache.read(keys[0])?.length, 300); // used now
  cache.trim();
  assert.deepStrictEqual(keys.map((key) => cache.read(key) !== null), [true, false, false, true]);
});

test('nothing is kept with ER_NO_CACHE=1, nor where nothing can be written', (t) => {
  const folder = newFolder(t);
  fs.mkdirSync(path.dirname(folder), { recursive: true });
  fs.writeFileSync(folder, 'no folder');
  const text = TEXTS['minified code'];
  const marks = new KeptMarks(new CacheFolder(folder));
  outcome((code, options) => marks.instrument(code, options), text);
  marks.writeAll();
  assert.strictEqual(fs.readFileSync(folder, 'utf8'), 'no folder');
  const off = new KeptMarks(new CacheFolder(null));
  assert.deepStrictEqual(outcome((code, options) => off.instrument(code, options), text), outcome(instrument, text));
  assert.deepStrictEqual([off.hits, off.misses], [0, 0]);
});
