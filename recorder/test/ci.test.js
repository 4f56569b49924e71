'use strict';
// .ci/run and run-tests, with stubs in place of what they call: a machine without a browser has not tested the recorder, and passes only where the caller
// accepts that; a test that fails once is flaky, and one that fails each time fails the run.

const assert = require('node:assert');
const { spawnSync } = require('node:child_process');
const fs = require('node:fs');
const path = require('node:path');
const { test } = require('node:test');
const { temporaryFolder } = require('./cleanup.js');

const RUN = path.join(__dirname, '..', '..', '.ci', 'run');
const RUN_TESTS = path.join(__dirname, '..', 'run-tests');

/**
 * The status of .ci/run in a folder where all commands that it calls end with 0, except those that are given.
 * @param {{[command: string]: number}} statuses
 * @param {{[name: string]: string}} environment
 */
function statusOf(statuses, environment = {}) {
  const folder = temporaryFolder('ci');
  const text = fs.readFileSync(RUN, 'utf8');
  const commands = new Set(['rt', 'recorder/run-tests', ...(text.match(/\btools\/[\w-]+/g) || [])]);
  for (const command of commands) {
    const file = path.join(folder, command);
    fs.mkdirSync(path.dirname(file), { recursive: true });
    fs.writeFileSync(file, `#!/bin/sh\nexit ${statuses[command] || 0}\n`, { mode: 0o755 });
  }
  fs.mkdirSync(path.join(folder, '.ci'));
  fs.writeFileSync(path.join(folder, '.ci', 'run'), text, { mode: 0o755 });
  const usual = { ...process.env };
  delete usual.ER_ALLOW_NO_BROWSER;
  const env = { ...usual, PATH: `${folder}:${process.env.PATH}`, ...environment };
  return spawnSync(path.join(folder, '.ci', 'run'), [], { env, encoding: 'utf8', timeout: 20000 }).status;
}

test('without a browser CI fails, unless the caller accepts it', () => {
  assert.strictEqual(statusOf({}), 0);
  assert.strictEqual(statusOf({ 'recorder/run-tests': 1 }), 1);
  assert.strictEqual(statusOf({ 'recorder/run-tests': 2 }), 2);
  assert.strictEqual(statusOf({ 'recorder/run-tests': 2 }, { ER_ALLOW_NO_BROWSER: '1' }), 0);
  assert.strictEqual(statusOf({ 'recorder/run-tests': 1 }, { ER_ALLOW_NO_BROWSER: '1' }), 1);
  for (const check of ['tools/layers', 'tools/types', 'tools/lint']) assert.notStrictEqual(statusOf({ [check]: 1 }), 0);
});

/**
 * What run-tests says of a folder with one file of tests.
 * @param {string} body
 */
function runTests(body) {
  const folder = temporaryFolder('run-tests');
  fs.mkdirSync(path.join(folder, 'test'));
  fs.copyFileSync(RUN_TESTS, path.join(folder, 'run-tests'));
  fs.writeFileSync(path.join(folder, 'install'), '#!/bin/sh\nexit 0\n', { mode: 0o755 });
  const head = `const { test } = require('node:test');\nconst fs = require('node:fs');\nconst count = ${JSON.stringify(path.join(folder, 'count'))};\n`;
  const failsOnce = "const fails = (name) => { fs.appendFileSync(count, name); return fs.readFileSync(count, 'utf8').split(name).length < 3; };\n";
  for (const name of ['pages', 'replay']) fs.writeFileSync(path.join(folder, 'test', `${name}.test.js`), name === 'pages' ? head + failsOnce + body : '');
  // The test that runs this one sets a variable, which would change what the inner one prints.
  const env = { ...process.env, ER_CLI: '/bin/true', NODE_TEST_CONTEXT: undefined };
  const { status, stdout, stderr } = spawnSync(path.join(folder, 'run-tests'), [], { env, encoding: 'utf8', timeout: 60000 });
  return { status, said: `${stdout}${stderr}` };
}

test('a test that fails once is flaky', { timeout: 60000 }, () => {
  const { status, said } = runTests("test('good', () => {});\ntest('odd # (a|b) \\\\ page.html', () => { if (fails('x')) throw new Error('late'); });\n");
  assert.match(said, /^recorder: flaky: test\/pages\.test\.js: odd # \(a\|b\) \\ page\.html$/m);
  assert.strictEqual(status, 0, said);
});

test('a test that fails each time, a file that does not load, and many failures fail the run', { timeout: 60000 }, () => {
  for (const body of [
    "test('good', () => {});\ntest('bad', () => { throw new Error('wrong'); });\n",
    "test('bad', () => {});\nthrow new Error('no file of tests');\n",
    "for (let k = 0; k < 9; k++) test(`test ${k}.`, () => { if (fails(`${k}.`)) throw new Error('late'); });\n",
  ]) {
    const { status, said } = runTests(body);
    assert.strictEqual(status, 1, said);
    assert.match(said, /^recorder: failed: test\/pages\.test\.js$/m);
  }
});
