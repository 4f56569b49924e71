'use strict';
// What is printed about scripts and pages of frames that are not in the served folder.

const assert = require('node:assert');
const { test } = require('node:test');
const { Folder, OUTSIDE } = require('../folder.js');
const { Unserved } = require('./unserved.js');

/**
 * @param {string} name
 * @param {string} resourceType
 * @returns {import('./paused.js').Paused}
 */
const request = (name, resourceType) => ({ requestId: '1', frameId: 'inner', resourceType, request: { url: `http://localhost/${name}`, method: 'GET' } });
const MISSING = { status: 404 };

test('files that are missing, and links to other places', () => {
  const unserved = new Unserved(new Folder(__dirname));
  assert.deepStrictEqual([unserved.inWords(), unserved.lines()], ['', []]);
  assert.ok(unserved.note(request('a/b.js?x#y', 'Script'), MISSING));
  assert.strictEqual(unserved.inWords(), '1 file of the page was not served (a/b.js): --root DIR, with a folder that has it');
  assert.deepStrictEqual(unserved.lines(), ['scripts and pages of frames, not served: 1 (a/b.js): --root DIR, with a folder that has it']);
  unserved.note(request('a/b.js?z', 'Script'), MISSING);
  unserved.note(request('frame.html', 'Document'), { ...MISSING, refused: OUTSIDE });
  assert.strictEqual(unserved.inWords(), '2 files of the page were not served (a/b.js, frame.html): --root DIR, with a folder that has them');
  unserved.note(request('c.js', 'Script'), { ...MISSING, refused: OUTSIDE });
  assert.deepStrictEqual(unserved.lines(), ['scripts and pages of frames, not served: 3, 2 of them links to other places (a/b.js, frame.html, ..): --root DIR, with a folder that has them']);
});

test('what is no loss of races, or has another reason', () => {
  const unserved = new Unserved(new Folder('/'));
  assert.ok(!unserved.note(request('a.png', 'Image'), MISSING));
  assert.ok(!unserved.note(request('a.js', 'Script'), { status: 200 }));
  assert.ok(!unserved.note(request('.a.js', 'Script'), { ...MISSING, refused: 'files of the folder with a dot at the start of their name' }));
  assert.strictEqual(unserved.inWords(), '');
  unserved.note(request('a.js', 'Script'), MISSING);
  assert.strictEqual(unserved.inWords(), '1 file of the page was not served (a.js)');
});
