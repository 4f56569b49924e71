'use strict';
// er_suite that a signal stops: the list has what there is so far.

const assert = require('node:assert');
const fs = require('node:fs');
const path = require('node:path');
const { test } = require('node:test');
const { sleep } = require('../common/time.js');
const { SHAPES } = require('./big-traces.js');
const { start, temporaryFolder } = require('./cleanup.js');

const TOP = path.join(__dirname, '..', '..');
const LIMIT = { timeout: 120000 };
const LOADS = 40;
const RACES = 20000;

/**
 * A folder with recorded page loads, each of which takes some time.
 * @param {number} loads
 * @param {number} races
 */
function folderOf(loads, races) {
  const folder = temporaryFolder('suite-stop');
  const { lines, names } = SHAPES.loop.make(races);
  for (let k = 0; k < loads; k++) {
    const base = path.join(folder, `load-${String(k).padStart(3, '0')}`);
    fs.writeFileSync(`${base}.trace`, ['webtrace 3', ...lines, 'end', ''].join('\n'));
    fs.writeFileSync(`${base}.names.json`, JSON.stringify({ ...names, load: { number: k, address: `http://localhost/${k}.html`, actions: 100 } }));
  }
  return folder;
}

/** @param {() => boolean} holds */
async function until(holds) {
  while (!holds()) await sleep(20);
}

/** @param {string} folder */
const viewsIn = (folder) => fs.readdirSync(folder).filter((name) => /^load.*\.html$/.test(name)).length;

test('while it analyzes: no further load begins, and those that are done are listed', LIMIT, async () => {
  const folder = folderOf(LOADS, RACES);
  const command = start(path.join(TOP, 'er_suite'), [folder]);
  await until(() => viewsIn(folder) > 0 || command.exitCode !== null);
  command.kill('SIGINT');
  assert.strictEqual(await command.ended, 130, command.said);
  const [, done] = /^er_suite: stopped: the list has (\d+) of 40 page loads$/m.exec(command.said) || [];
  assert.ok(Number(done) >= 1 && Number(done) < LOADS, command.said);
  assert.match(command.output, /`name0` keeps what is written last, by the timeout \S+ or by the timeout/);
  assert.match(command.output, new RegExp(`: ${done} page loads, index\\.html$`, 'm'));
  assert.ok(fs.existsSync(path.join(folder, 'index.html')));
});

test('while it waits for a recorder: what has come is listed', LIMIT, async () => {
  const folder = folderOf(1, 100);
  fs.writeFileSync(path.join(folder, `.recording-${process.pid}`), '');
  const command = start(path.join(TOP, 'er_suite'), [folder]);
  for (const end = Date.now() + 3000; Date.now() < end && command.exitCode === null;) await sleep(100);
  command.kill('SIGINT');
  assert.strictEqual(await command.ended, 1, command.said);
  assert.match(command.said, /^er_suite: a recorder still writes: the list has what it has written so far/m);
  assert.match(command.output, /: 1 page loads, index\.html$/m);
});
