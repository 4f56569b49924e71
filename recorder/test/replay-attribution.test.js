'use strict';
// One run turns several races: what a page's user loses by one of them is not said of the others. A search page, whose field a late script fills, and two late
// handlers of keys that do nothing for a field.

const assert = require('node:assert');
const fs = require('node:fs');
const path = require('node:path');
const { test } = require('node:test');
const { run, temporaryFolder } = require('./cleanup.js');

const TOP = path.join(__dirname, '..', '..');
const folder = temporaryFolder('replay-attribution-test');
const LONGEST = 300000;
const PAGE = `<!doctype html><title>search</title><body><form><input name="q" value=""></form><p id="note">Search</p>
<script src="keys.js" defer></script><script src="light.js" defer></script><script src="fill.js" defer></script></body>`;
const KEYS = `document.addEventListener('DOMContentLoaded', () => {
  document.addEventListener('keydown', (event) => {
    if (event.target.localName !== 'input') document.getElementById('note').textContent = 'key';
  });
});`;
const FILL = `document.addEventListener('DOMContentLoaded', () => {
  document.querySelector('input[name=q]').value = 'theme';
});`;
const CALLS = [
  { name: 'the handlers ran in the recording', words: ['--do', 'wait:500', '--do', 'type:input[name=q]:x'], recorded: 'the user came last' },
  { name: 'the handlers run only in the replay', words: ['--slow', '600', '--do', 'early type:input[name=q]:x'], recorded: 'the user came first, and it was written over' },
];

for (const [k, { name, words, recorded }] of CALLS.entries()) {
  test(`${name}, and read only: the difference comes from the race at the field`, { timeout: LONGEST + 10000 }, async () => {
    const own = path.join(folder, String(k));
    fs.mkdirSync(own);
    for (const [file, text] of Object.entries({ 'search.html': PAGE, 'keys.js': KEYS, 'light.js': KEYS, 'fill.js': FILL })) fs.writeFileSync(path.join(own, file), text);
    const { status, stdout, stderr } = await run(path.join(TOP, 'er_page'), ['search.html', '--replay', ...words], { longest: LONGEST, cwd: own });
    assert.strictEqual(status, 1, stderr);
    assert.match(stdout, /^Replayed 3 of 3 races: 1 differs, 2 only by another race\.$/m);
    assert.match(stdout, /^3 problems .*, 3 run again in the other order: 1 differs, 2 only by another race; the view/m);
    assert.strictEqual(stderr.match(/: differs only by another race \(/g)?.length, 2, stderr);
    const entries = stdout.split(/\n(?=\S+\.js:\d+ {2})/).slice(1).map((entry) => entry.replace(/\n {8}/g, ' '));
    assert.match(entries[0], new RegExp(`^fill\\.js:2 .* is overwritten[^]*recorded: ${recorded}\n +replayed: in the other order the value of input\\[name=q\\] is "[a-z]+" instead of "[a-z]+"\n`));
    for (const entry of entries.slice(1)) {
      assert.match(entry, /^(keys|light)\.js:2 .*\n[^]*replayed: the handler changed nothing that is recorded; the value of input\[name=q\] differs too, which comes from fill\.js:2 \(above\)\n/);
    }
    assert.match(stdout, /^-- loses what a user does\nfill\.js[^]*^-- late handlers that changed nothing[^]*^keys\.js[^]*^light\.js/m);
    const { races } = JSON.parse(fs.readFileSync(path.join(own, 'search.races', 'page.replay.json'), 'utf8'));
    assert.deepStrictEqual(races.map((/** @type {{kind: string}} */ { kind }) => kind), ['differs', 'others', 'others']);
  });
}
