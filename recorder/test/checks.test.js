'use strict';
// tools/layers, tools/types and tools/lint: each reports the mistakes that are planted here, by file and name, and fails.

const assert = require('node:assert');
const { spawnSync } = require('node:child_process');
const fs = require('node:fs');
const path = require('node:path');
const { test } = require('node:test');
const { temporaryFolder } = require('./cleanup.js');

const TOP = path.join(__dirname, '..', '..');
const CONFIGURED = ['tools/layers', 'tools/types', 'tools/lint', 'tools/node-types', 'recorder/.eslintrc.json', 'recorder/jsconfig.json', 'recorder/page/jsconfig.json'];
const FILES = {
  'common/text.js': "/** @param {string} text */\nconst short = (text) => text.slice(0, 9);\nmodule.exports = { short };\n",
  'page/core/sums.js': '/** @param {number} one */\nconst next = (one) => one + 1;\nexport { next };\n',
};
/** In both halves: a missing import, an unknown name, a wrong type, an import that nothing uses; imports against the layers, aside, in a circle, of no file. */
const MISTAKES = {
  'list/missing.js': "module.exports = { a: short('a') };\n",
  'list/unknown.js': "const { longer } = require('../common/text.js');\nmodule.exports = { longer };\n",
  'list/wrong.js': "const { short } = require('../common/text.js');\nmodule.exports = { a: short(1) };\n",
  'list/unused.js': "const { short } = require('../common/text.js');\nmodule.exports = {};\n",
  'common/upward.js': "module.exports = require('../list/unused.js');\n",
  'list/aside.js': "module.exports = require('../view/circle.js');\n",
  'view/circle.js': "module.exports = { a: require('./other.js') };\n",
  'view/other.js': "module.exports = { a: require('./circle.js') };\n",
  'list/nowhere.js': "module.exports = require('./nothing.js');\n",
  'page/log/missing.js': 'const two = next(1);\nexport { two };\n',
  'page/log/unknown.js': "import { after } from '../core/sums.js';\nexport { after };\n",
  'page/log/wrong.js': "import { next } from '../core/sums.js';\nconst two = next('1');\nexport { two };\n",
  'page/log/unused.js': "import { next } from '../core/sums.js';\nconst two = 2;\nexport { two };\n",
  'page/core/upward.js': "import { two } from '../log/unused.js';\nexport { two };\n",
  'page/events/here.js': 'const one = 1;\nexport { one };\n',
  'page/tasks/aside.js': "import { one } from '../events/here.js';\nexport { one };\n",
};

/** @param {string} folder @param {{[name: string]: string}} files */
function write(folder, files) {
  for (const [name, text] of Object.entries(files)) {
    const file = path.join(folder, 'recorder', name);
    fs.mkdirSync(path.dirname(file), { recursive: true });
    fs.writeFileSync(file, /^page\//.test(name) ? text : `'use strict';\n${text}`);
  }
}

/** A copy of the checks and their configurations, and two modules without a mistake. */
function checkout() {
  const folder = temporaryFolder('checks');
  write(folder, FILES);
  for (const name of CONFIGURED) {
    fs.mkdirSync(path.dirname(path.join(folder, name)), { recursive: true });
    fs.copyFileSync(path.join(TOP, name), path.join(folder, name));
  }
  fs.writeFileSync(path.join(folder, 'recorder', 'install'), '#!/bin/sh\nexit 0\n', { mode: 0o755 });
  return folder;
}

/**
 * The lines that a check prints of the mistakes. That it passes without them, the gate shows.
 * @param {string} name
 */
function linesOf(name) {
  const folder = checkout();
  write(folder, MISTAKES);
  const { status, stdout, stderr } = spawnSync(path.join(folder, 'tools', name), [], { encoding: 'utf8', timeout: 120000 });
  assert.strictEqual(status, 1, stderr);
  return stdout.split('\n');
}

/** @param {string[]} lines @param {[file: string, what: RegExp][]} expected */
function hasAll(lines, expected) {
  for (const [file, what] of expected) assert.ok(lines.some((line) => line.includes(file) && what.test(line)), `${file}: ${what}\n${lines.join('\n')}`);
}

/** @param {string} command */
const without = (command) => (spawnSync('sh', ['-c', `command -v ${command}`]).status ? `there is no ${command}` : false);

test('tools/layers', () => {
  const lines = linesOf('layers');
  assert.deepStrictEqual(lines.slice(0, -2).sort(), [
    'a circle: view/circle.js -> view/other.js -> view/circle.js',
    'recorder/common/upward.js imports list/unused.js',
    'recorder/list/aside.js imports view/circle.js',
    'recorder/list/nowhere.js imports list/nothing.js, which does not exist',
    'recorder/page/core/upward.js imports page/log/unused.js',
    'recorder/page/tasks/aside.js imports page/events/here.js',
  ]);
});

test('tools/lint', { skip: without('eslint') }, () => {
  hasAll(linesOf('lint'), [
    ['list/missing.js', /'short' is not defined/], ['list/unused.js', /'short' is assigned a value but never used/],
    ['page/log/missing.js', /'next' is not defined/], ['page/log/unused.js', /'next' is defined but never used/],
  ]);
});

test('tools/types', { skip: without('tsc') }, () => {
  hasAll(linesOf('types'), [
    ['list/missing.js', /Cannot find name 'short'/], ['list/unknown.js', /has no exported member 'longer'/], ['list/wrong.js', /'number' is not assignable to parameter of type 'string'/],
    ['list/unused.js', /'short' is declared but its value is never read/], ['list/nowhere.js', /Cannot find module '.\/nothing.js'/],
    ['page/log/missing.js', /Cannot find name 'next'/], ['page/log/unknown.js', /has no exported member 'after'/],
    ['page/log/wrong.js', /'string' is not assignable to parameter of type 'number'/], ['page/log/unused.js', /'next' is declared but its value is never read/],
  ]);
});
