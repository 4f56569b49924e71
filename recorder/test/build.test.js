'use strict';
// er_page in a build: the file of known races, statuses, one object for other tools, SARIF, several runs.

const assert = require('node:assert');
const fs = require('node:fs');
const path = require('node:path');
const { test } = require('node:test');
const { run, temporaryFolder } = require('./cleanup.js');

const TOP = path.join(__dirname, '..', '..');
const PAGES = path.join(__dirname, 'pages');
const PAGE = path.join(PAGES, 'race-timeouts.html');
const LIMIT = { timeout: 150000 };
const LONGEST_RUN = 120000;
const SARIF_CHECK = path.join(__dirname, 'drivers', 'check_sarif.py');
const hasSarifClasses = fs.existsSync('/usr/lib/python3/dist-packages/sarif_om');
const folder = temporaryFolder('build-test');
/**
 * @typedef {{name: string, isKnown: boolean, hasLine: boolean}} Problem of the one object for other tools
 * @typedef {{partialFingerprints: {[name: string]: string}, locations?: unknown[], relatedLocations?: unknown[]}} SarifResult
 */
/** The list alone: er_page would replay its first races. */
const ALONE = ['--no-replay'];
/** @type {(name: string, ...words: string[]) => ReturnType<typeof run>} */
const pageOf = (name, ...words) => run(path.join(TOP, 'er_page'), [path.join(PAGES, name), ...ALONE, ...words], { cwd: folder, longest: LONGEST_RUN });
/** @param {string[]} words */
const page = (...words) => pageOf('race-timeouts.html', ...words);
/** @param {string} name */
const read = (name) => fs.readFileSync(path.join(folder, name), 'utf8');

test('a build fails on a new race alone', LIMIT, async () => {
  const first = await page('--known', 'known', '--write-known', '--sarif', 'out.sarif');
  assert.strictEqual(first.status, 1, first.stderr);
  assert.match(first.stdout, /^ {4}[0-9a-f]{12} \(for races\.known\)/m);
  assert.match(read('known'), /^[0-9a-f]{12} ".*; nothing orders them\.$/m);
  const again = await page('--known', 'known', '--json');
  assert.strictEqual(again.status, 0, again.stdout);
  /** @type {{status: number, problems: Problem[], notSeen: unknown[]}} */
  const { status, problems, notSeen } = JSON.parse(again.stdout);
  assert.strictEqual(status, 0);
  assert.ok(problems.length > 0 && problems.every(({ isKnown }) => isKnown));
  assert.deepStrictEqual(notSeen, []);
  /** @type {{runs: {results: SarifResult[]}[]}} */
  const sarif = JSON.parse(read('out.sarif'));
  const names = sarif.runs[0].results.map(({ partialFingerprints }) => partialFingerprints['raceName/v1']);
  assert.deepStrictEqual(names.sort(), problems.filter(({ hasLine }) => hasLine).map(({ name }) => name).sort());
  assert.ok(sarif.runs[0].results.every(({ locations, relatedLocations }) => locations?.length === 1 && relatedLocations?.length === 1));
  if (hasSarifClasses) assert.strictEqual((await run('/usr/bin/python3', [SARIF_CHECK, path.join(folder, 'out.sarif')], { longest: LONGEST_RUN })).status, 0);
});

test('several runs are one list', LIMIT, async () => {
  const { status, stdout, stderr } = await page('--runs', '2');
  assert.strictEqual(status, 1, stderr);
  assert.match(stdout, /^ {4}runs: seen in 2 of 2 runs/m);
  assert.ok(fs.existsSync(path.join(folder, 'race-timeouts.races', 'runs', '2.html')));
});

test('two acts of a user against each other fail no build unless it is asked for', LIMIT, async () => {
  const words = ['--do', 'click:#list', '--do', 'click:#table', '--known', 'acts'];
  const plain = await pageOf('two-buttons.html', ...words, '--write-known');
  assert.strictEqual(plain.status, 0, plain.stderr);
  assert.match(plain.stdout, /^-- only another input of the user changes the order\n\S*two-buttons\.html:\d+ {2}Two acts of a user reach `mode`/m);
  assert.strictEqual(read('acts').split('\n').filter((line) => line && !line.startsWith('#')).length, 0);
  const asked = await pageOf('two-buttons.html', ...words, '--acts');
  assert.strictEqual(asked.status, 1, asked.stderr);
});

test('a page of more steps than the analyzer takes', LIMIT, async () => {
  const { status, stdout, stderr } = await pageOf('many-steps.html');
  assert.strictEqual(status, 1, stderr);
  assert.match(stderr, /^er_page: left out, over the limits of the analyzer: "steps", with \d{5} accesses and \d{8} pairs$/m);
  assert.match(stdout, /^\S*many-steps\.html:\d+ {2}`word` keeps what is written last, by the timeout late or by the timeout soon/m);
  assert.match(read('many-steps.races/page.html'), /Left out, since they are over the limits of the analyzer: the accesses to .*steps/);
  assert.match(read('many-steps.races/page.report'), /^report 1$/m);
});

/** The job that docs/ci.md has to copy. */
const jobOfDocument = () => /^#!\/usr\/bin\/env bash\n[^`]*/m.exec(fs.readFileSync(path.join(TOP, 'docs', 'ci.md'), 'utf8'))?.[0] ?? assert.fail('no job');

test('the job that the document has', LIMIT, async () => {
  const own = path.join(folder, 'job');
  fs.mkdirSync(path.join(own, 'build'), { recursive: true });
  fs.copyFileSync(PAGE, path.join(own, 'build', 'index.html'));
  fs.writeFileSync(path.join(own, 'er_page'), `#!/bin/sh\nexec '${path.join(TOP, 'er_page')}' "$@"\n`, { mode: 0o755 });
  const job = () => run('/bin/bash', ['-c', jobOfDocument()], { cwd: own, longest: LONGEST_RUN });
  fs.writeFileSync(path.join(own, 'races.known'), '');
  const fresh = await job();
  assert.strictEqual(fresh.status, 1, fresh.stderr);
  assert.match(fresh.stderr, /a new race: see races\.sarif/);
  /** @type {{problems: Problem[]}} */
  const { problems } = JSON.parse(fs.readFileSync(path.join(own, 'races.json'), 'utf8'));
  fs.writeFileSync(path.join(own, 'races.known'), problems.map(({ name }) => `${name}\n`).join(''));
  const again = await job();
  assert.strictEqual(again.status, 0, again.stderr);
});

test('a mistake is reported before anything is recorded', LIMIT, async () => {
  fs.writeFileSync(path.join(folder, 'bad'), '# fine\nno name\n');
  fs.rmSync(path.join(folder, 'race-timeouts.races'), { recursive: true });
  /** @type {[words: string[], said: RegExp][]} */
  const wrong = [
    [['--known', 'bad'], /bad, line 2: no name of a race/], [['--known', 'none'], /none: there is no such file/], [['--write-known'], /--write-known requires --known FILE/],
    [['--sarif'], /the value of --sarif is missing/], [['--runs', '0'], /--runs takes a whole number from 1 to 100/],
  ];
  for (const [words, said] of wrong) {
    const { status, stderr } = await page(...words);
    assert.strictEqual(status, 2, words.join(' '));
    assert.match(stderr, said);
  }
  assert.ok(!fs.existsSync(path.join(folder, 'race-timeouts.races')));
  assert.strictEqual(read('bad'), '# fine\nno name\n');
});
