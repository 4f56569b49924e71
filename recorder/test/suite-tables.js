'use strict';
// docs/measured/suite.md: each tool writes its own part, and leaves the others.

const { spawnSync } = require('node:child_process');
const fs = require('node:fs');
const path = require('node:path');
const { writeWhole } = require('../common/whole-file.js');

const TOP = path.join(__dirname, '..', '..');
const FILE = path.join(TOP, 'docs', 'measured', 'suite.md');
const HEAD = '# What a suite costs\n\nMeasured, each part with its commit and date.\n';

/** @param {string[]} words */
const git = (...words) => spawnSync('git', words, { cwd: TOP, encoding: 'utf8' }).stdout.trim();

/**
 * Writes a part of the file in the place of the earlier one.
 * @param {string} name
 * @param {string} text
 */
function writePart(name, text) {
  const before = fs.existsSync(FILE) ? fs.readFileSync(FILE, 'utf8').split(/^(?=## )/m).filter((part) => part.startsWith('## ')) : [];
  const own = `## ${name}\n\nCommit ${git('rev-parse', '--short', 'HEAD')}, ${new Date().toISOString().slice(0, 10)}. ${text}`;
  const isOwn = (/** @type {string} */ part) => part.startsWith(`## ${name}\n`);
  const parts = before.some(isOwn) ? before.map((part) => (isOwn(part) ? own : part)) : [...before, own];
  writeWhole(FILE, [HEAD, ...parts.map((part) => `${part.trimEnd()}\n`)].join('\n'));
}

module.exports = { writePart };
