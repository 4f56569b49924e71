'use strict';
// The rule of the applications, and their list. No application is installed or started.

const assert = require('node:assert');
const fs = require('node:fs');
const path = require('node:path');
const { test } = require('node:test');
const { parsePackages } = require('../corpus/packages.js');
const { isCandidate } = require('./candidates.js');
const { bugNames, bugOf } = require('./confirmed.js');
const { APPLICATIONS } = require('./list.js');
const { leftOut } = require('./tables.js');

const PARAGRAPHS = [
  'Package: wiki\nSection: web\nDescription: a wiki\nTag: implemented-in::php, interface::web,\n role::program, web::wiki',
  'Package: admin\nSection: contrib/web\nDescription: web-based administration of a thing',
  'Package: tool\nSection: utils\nDescription: a tool\nTag: interface::commandline, role::program',
  'Package: wiki-doc\nSection: doc\nDescription: web interface, documents\nTag: interface::web, role::program',
];

test('candidates are tagged as programs with a web interface, or described so, and of no section of documents', () => {
  const packages = [...parsePackages(PARAGRAPHS.join('\n\n')).values()];
  assert.deepStrictEqual(packages.filter(isCandidate).map(({ name }) => name), ['wiki', 'admin']);
});

test('each application has a module, and none of them is left out', () => {
  const names = Object.keys(APPLICATIONS);
  assert.deepStrictEqual(names, [...names].sort());
  assert.deepStrictEqual(fs.readdirSync(path.join(__dirname, 'packages')).sort(), names.map((name) => `${name}.js`).sort());
  names.forEach((name) => assert.strictEqual(APPLICATIONS[name].package, name));
  assert.deepStrictEqual(leftOut().map(({ package: name }) => name).filter((name) => APPLICATIONS[name]), []);
  assert.ok(leftOut().every(({ reason }) => reason));
});

test('at least fifteen applications, and three of them after log-ins', () => {
  const all = Object.values(APPLICATIONS);
  assert.ok(all.length >= 15);
  assert.ok(all.filter(({ login }) => login).length >= 3);
});

test('each confirmed bug is of an application, and says what a user loses', () => {
  assert.ok(bugNames().length >= 5);
  for (const bug of bugNames().map(bugOf)) assert.ok(APPLICATIONS[bug.application] && bug.loses && bug.line);
});
