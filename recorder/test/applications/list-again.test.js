'use strict';
// Lists that are made again of recordings that are there. No application is started.

const assert = require('node:assert');
const { spawnSync } = require('node:child_process');
const fs = require('node:fs');
const path = require('node:path');
const { test } = require('node:test');
const { PROGRAM } = require('../../races/program.js');
const { temporaryFolder } = require('../cleanup.js');
const { listAgain } = require('./list-again.js');

const RECORDED = path.join(__dirname, '..', '..', 'list', 'recorded');

test('the lists of two recordings, of which one is there', { timeout: 60000 }, async () => {
  const folder = temporaryFolder('list-again');
  const races = path.join(folder, 'shaarli', '1', 'x.races');
  fs.mkdirSync(races, { recursive: true });
  const [recording] = fs.readdirSync(RECORDED).filter((one) => one.endsWith('.trace'));
  const file = path.join(RECORDED, recording);
  fs.copyFileSync(file, path.join(races, 'page.trace'));
  fs.copyFileSync(file.replace(/trace$/, 'names.json'), path.join(races, 'page.names.json'));
  const { stdout } = spawnSync(PROGRAM, [], { input: fs.readFileSync(file) });
  fs.writeFileSync(path.join(races, 'page.report'), stdout);
  const run = { status: 1, seconds: 2, errors: [], notRecorded: [], notDone: [] };
  const figures = { actions: 1, accesses: 1, races: 1, groups: 1, lines: 1, sections: {} };
  const line = { application: 'shaarli', version: '', login: '', began: '', seconds: 3, machine: { chromium: '', processors: 4, loads: [] }, runs: [run, { ...run, figures }], loads: { without: [], with: [] }, problems: [] };
  const { runs, problems, bugs } = await listAgain(line, folder);
  assert.ok(problems.length > 0);
  assert.strictEqual(runs[0].figures?.lines, problems.length);
  assert.strictEqual(runs[0].figures?.races, Number(/^races (\d+)$/m.exec(String(stdout))?.[1]));
  assert.deepStrictEqual(runs[1].figures, figures, 'what the line says stays');
  assert.deepStrictEqual(Object.keys(bugs || {}), ['shaarli-delete']);
});
