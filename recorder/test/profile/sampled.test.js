'use strict';
// How the samples of a profile are summed up, and which module of the page's script a line is of.

const assert = require('node:assert');
const { test } = require('node:test');
const { pageScript, SCRIPT_NAME } = require('../../recording/page-script.js');
const { pageGroups, modulesOf } = require('./groups.js');
const { timesByGroup, hottest } = require('./sampled.js');

const frame = (/** @type {string} */ functionName, url = '', lineNumber = 0) => ({ functionName, url, lineNumber });

test('time counts to the group of a function, and to that of its caller where it has none', () => {
  const profile = {
    nodes: [
      { id: 1, callFrame: frame('(root)'), children: [2, 4] }, { id: 2, callFrame: frame('page', 'page.js'), children: [3] },
      { id: 3, callFrame: frame('push') }, { id: 4, callFrame: frame('idle') },
    ],
    samples: [2, 3, 4, 3], timeDeltas: [1000, 2000, 500, 3000],
  };
  const groupOf = (/** @type {import('./sampled.js').CallFrame} */ { url, functionName }) => url || (functionName === 'idle' ? 'idle' : null);
  assert.deepStrictEqual([...timesByGroup(profile, groupOf)].sort(), [['idle', 0.5], ['other', 0], ['page.js', 6]]);
  assert.deepStrictEqual(hottest(profile, () => true, 1), [['push:1', 5]]);
});

test('each line of the script is of a module', () => {
  const script = pageScript([], {});
  const modules = modulesOf(script);
  const { line } = /** @type {{line: number}} */ (modules.find(({ file }) => file.startsWith('helpers/')));
  const groups = pageGroups(script, SCRIPT_NAME);
  assert.strictEqual(groups(frame('member', SCRIPT_NAME, line + 1)), 'recorder: helpers');
  assert.strictEqual(groups(frame('', 'https://example.org/')), "the page's code");
  assert.strictEqual(groups(frame('push')), null);
});
