'use strict';
// The bundler: modules keep their names to themselves, and what it can't read it refuses.

const assert = require('node:assert');
const fs = require('node:fs');
const os = require('node:os');
const path = require('node:path');
const { test } = require('node:test');
const { tokenizer } = require('/usr/share/nodejs/acorn');
const { bundled, withoutComments } = require('./bundle.js');

/**
 * The exports of main.js among some modules.
 * @param {{after: (clean: () => void) => void}} t the context of a test
 * @param {{[name: string]: string}} files
 */
function run(t, files) {
  const folder = fs.mkdtempSync(path.join(os.tmpdir(), 'bundle-'));
  t.after(() => fs.rmSync(folder, { recursive: true }));
  for (const [name, text] of Object.entries(files)) {
    fs.mkdirSync(path.dirname(path.join(folder, name)), { recursive: true });
    fs.writeFileSync(path.join(folder, name), text);
  }
  // eslint-disable-next-line no-eval
  return (0, eval)(bundled(path.join(folder, 'main.js'), ['given']))('what is given');
}

test('a module sees what it imports, under its own name, and no other name', (t) => {
  const exports = run(t, {
    'main.js': "// a head\n\nimport { a, inner as\n  b } from './in/a.js';\nimport { c } from './c.js';\n\nconst hidden = 1;\nconst told = [a, b(), c, hidden, given];\n\nexport { told };\n",
    'in/a.js': "import { c } from '../c.js';\n\nconst hidden = 2;\nconst a = c + hidden;\nfunction inner() { return inner.name; }\n\nexport {\n  a, inner,\n};\n",
    'c.js': 'const c = 40;\n\nexport { c };\n',
  });
  assert.deepStrictEqual(exports, { told: [42, 'inner', 40, 1, 'what is given'] });
});

test('a module runs once, after those that it imports', (t) => {
  const { list } = run(t, {
    'main.js': "import { list } from './list.js';\nimport { b } from './b.js';\n\nlist.push('main', b);\n\nexport { list };\n",
    'list.js': 'const list = [];\n\nexport { list };\n',
    'b.js': "import { list } from './list.js';\n\nlist.push('b');\nconst b = list.length;\n\nexport { b };\n",
  });
  assert.deepStrictEqual(list, ['b', 'main', 1]);
});

test('without its comments a module has the same tokens, in the same lines', () => {
  const page = path.join(__dirname, '..', 'page');
  const files = fs.readdirSync(page, { recursive: true, encoding: 'utf8' }).filter((name) => name.endsWith('.js'));
  assert.ok(files.length > 50);
  const tokens = (/** @type {string} */ text) => [...tokenizer(text, { ecmaVersion: 'latest', sourceType: 'module', locations: true })]
    .map(({ type, loc, start, end }) => `${loc?.start.line} ${type.label} ${text.slice(start, end)}`);
  for (const name of files) {
    const text = fs.readFileSync(path.join(page, name), 'utf8');
    assert.deepStrictEqual(tokens(withoutComments(text)), tokens(text), name);
  }
});

/** @type {[name: string, files: {[name: string]: string}, message: RegExp][]} */
const REFUSED = [
  ['a name that is not exported', { 'main.js': "import { b } from './a.js';\n", 'a.js': 'const a = 1;\n\nexport { a };\n' }, /main\.js: a\.js does not export b/],
  ['a circle', { 'main.js': "import { a } from './a.js';\n", 'a.js': "import { b } from './main.js';\n\nexport { a };\n" }, /main\.js: imports itself/],
  ['another form of an import', { 'main.js': "import a from './a.js';\n" }, /main\.js: import a from/],
  ['another form of an export', { 'main.js': 'export const a = 1;\n' }, /main\.js: export const a = 1;/],
  ['no such module', { 'main.js': "import { a } from './a.js';\n" }, /ENOENT/],
];
for (const [name, files, message] of REFUSED) test(`refused: ${name}`, (t) => assert.throws(() => run(t, files), message));
