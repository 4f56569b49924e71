'use strict';
// docs/recorded.md is what the recorder's tables say.

const assert = require('node:assert');
const fs = require('node:fs');
const { test } = require('node:test');
const { DOCUMENT, documentOfNames, namesOfBrowser } = require('./recorded-names.js');
const { constantsOf, hookedBy } = require('./recorded-tables.js');

test('the document has the names of the tables', () => {
  assert.strictEqual(fs.readFileSync(DOCUMENT, 'utf8'), documentOfNames(), 'node recorder/test/recorded-names.js --write');
});

test('tables and hooks are found in the texts of the modules', () => {
  assert.strictEqual(constantsOf('page/objects/shown.js').SHOWN.className, 'class');
  assert.deepStrictEqual(hookedBy('page/events/handlers.js'), ['addEventListener', 'removeEventListener']);
  assert.deepStrictEqual(hookedBy('page/tasks/promises.js'), ['all', 'allSettled', 'any', 'then', 'queueMicrotask']);
  assert.ok(['scrollTo', 'showModal', 'selectionStart', 'requestFullscreen'].every((name) => hookedBy('page/events/causes.js').includes(name)));
  for (const name of ['outerHTML', 'ping', 'getItem', 'postTask', 'openCursor', 'then', 'assign']) assert.ok(namesOfBrowser().includes(name), name);
});
