'use strict';
// The commands in a clone in which nothing is built: a copy, with a stand-in for the toolchain's rt, so that no answer takes a minute.

const assert = require('node:assert');
const fs = require('node:fs');
const path = require('node:path');
const { test } = require('node:test');
const { run, start, temporaryFolder } = require('./cleanup.js');

const TOP = path.join(__dirname, '..', '..');
const VERSION = fs.readFileSync(path.join(TOP, 'VERSION'), 'utf8').trim();
const LONGEST_RUN = 90000;
const LONGEST_TEST = 150000;
const ANSWERS = process.env.ER_CLI || path.join(TOP, 'crates', 'er_cli', 'out', 'er_cli');
const UNPROVED = /^er_cli: the analyzer is not built yet: .* NOT PROVED on this machine yet\ner_cli: .*er_cli --build proves and builds it .*\n/m;
const TABS = path.join(TOP, 'examples', 'page-jquery-ui-tabs-with-requests');
const PLAIN = /^er_cli: NOT PROVED: the program is not built yet, so a second program answers, .*\(bench\/plain\)\ner_cli: .*er_cli --build proves and builds the program .*\n/m;
const folder = temporaryFolder('unbuilt');
const clone = path.join(folder, 'clone');
/** The same, in which bench/plain can be compiled. */
const plain = path.join(folder, 'plain');
const temporary = path.join(folder, 'temporary');

/** @param {string} name */
function copy(name) {
  fs.cpSync(path.join(TOP, name), path.join(clone, name), { recursive: true, filter: (from) => !from.startsWith(__dirname) });
}

['er_cli', 'er_page', 'er_record', 'er_view', 'recorder', 'crates.txt', 'VERSION', 'crates/er_cli/src', 'tools/program', 'tools/unproved', 'tools/version', 'examples/shop'].forEach(copy);
fs.cpSync(clone, plain, { recursive: true });
fs.writeFileSync(path.join(plain, 'tools', 'plain'), '#!/bin/sh\necho "$ANSWERS"\n', { mode: 0o755 });
fs.mkdirSync(temporary);
fs.mkdirSync(path.join(folder, 'bin'));
fs.symlinkSync(path.join(TOP, 'tools', 'stand-in-rt'), path.join(folder, 'bin', 'rt'));
fs.mkdirSync(path.join(folder, 'node'));
fs.symlinkSync(process.execPath, path.join(folder, 'node', 'node'));
const env = { ...process.env, ER_CLI: '', ANSWERS, TMPDIR: temporary, PATH: `${path.join(folder, 'bin')}:${process.env.PATH}` };
/** @type {(command: string, words: string[], more?: NodeJS.ProcessEnv) => ReturnType<typeof run>} */
const call = (command, words, more = {}) => run(path.join(clone, command), words, { cwd: folder, env: { ...env, ...more }, longest: LONGEST_RUN });
/** @type {(command: string, words: string[]) => ReturnType<typeof run>} */
const callPlain = (command, words) => run(path.join(plain, command), words, { cwd: plain, env, longest: LONGEST_RUN });

/**
 * A trace of its own for a test.
 * @param {string} name
 */
function traceOf(name) {
  const file = path.join(folder, `${name}.trace`);
  fs.copyFileSync(`${TABS}.trace`, file);
  return file;
}

test('the view of a trace: its races, and a sentence in place of the ways', { timeout: LONGEST_TEST }, async () => {
  const file = traceOf('view');
  const { status, stderr } = await call('er_view', [file]);
  assert.strictEqual(status, 1, stderr);
  assert.strictEqual(stderr.replace(UNPROVED, ''), '');
  const page = fs.readFileSync(file.replace('.trace', '.html'), 'utf8');
  assert.ok(page.includes('After <code>./er_cli --build</code>') && page.includes('"links":[]'), 'the view tells that the ways are left for later');
});

test('why one action comes before another', { timeout: LONGEST_TEST }, async () => {
  const { status, stdout, stderr } = await call('er_view', [traceOf('why'), '--why', '24', '89']);
  assert.strictEqual(status, 0, stderr);
  assert.match(stdout, /by rule 14/);
  assert.match(stderr, UNPROVED);
});

test('a page: its races are told in one go, and said not to be proved', { timeout: LONGEST_TEST }, async () => {
  const { status, stdout, stderr } = await call('er_page', ['clone/examples/shop/index.html', '--runs', '2', '--slow', '300', '--do', 'early click:#add']);
  assert.strictEqual(status, 1, stderr);
  assert.match(stdout, /^ {4}[0-9a-f]{12} \(for races\.known\)/m);
  assert.strictEqual(stderr.match(/NOT PROVED/g)?.length, 1, stderr);
  const own = path.join(folder, 'shop.races');
  assert.match(fs.readFileSync(path.join(own, 'page.report'), 'utf8'), /^report 1\n[^]*\nend\n$/);
  assert.match(fs.readFileSync(path.join(own, 'page.html'), 'utf8'), /class="unproved"/);
});

test('a program without proofs answers at once: the paths of a view, and why', { timeout: LONGEST_TEST }, async () => {
  const file = traceOf('plain');
  const { status, stderr } = await callPlain('er_view', [file]);
  assert.strictEqual(status, 1, stderr);
  assert.strictEqual(stderr.replace(PLAIN, ''), '');
  const page = fs.readFileSync(file.replace('.trace', '.html'), 'utf8');
  assert.ok(page.includes('class="unproved"') && page.includes('a second program without proofs'), 'the view says what found its races');
  assert.ok(!page.includes('"links":[]'), 'the view has paths');
  const why = await callPlain('er_view', [file, '--why', '24', '89']);
  assert.match(why.stdout, /by rule 14/);
  assert.match(why.stderr, PLAIN);
});

test('a program without proofs answers replays, and they are said not to be proved', { timeout: LONGEST_TEST }, async () => {
  const { status, stdout, stderr } = await callPlain('er_page', ['examples/shop/index.html', '--replay', '--most', '1', '--slow', '300', '--do', 'early click:#add']);
  assert.strictEqual(status, 1, stderr);
  assert.match(stdout, /^Replayed 1 of 1 race: /m);
  assert.match(stderr, PLAIN);
  assert.strictEqual(stderr.match(/NOT PROVED/g)?.length, 1, stderr);
  const own = path.join(plain, 'shop.races');
  assert.ok(fs.existsSync(path.join(own, 'page.replay.json')));
  assert.match(fs.readFileSync(path.join(own, 'page.html'), 'utf8'), /class="unproved"/);
});

test('races are not run again where each answer takes minutes', { timeout: LONGEST_TEST }, async () => {
  const { status, stdout, stderr } = await call('er_page', ['clone/examples/small.html', '--replay']);
  assert.strictEqual(status, 10);
  assert.strictEqual(stdout, '');
  assert.match(stderr, /^er_page: nothing done: .*\.\/er_cli --build.*\n$/);
});

test('no rt: one line, before anything is recorded', { timeout: LONGEST_TEST }, async () => {
  for (const { command, words } of [{ command: 'er_page', words: ['clone/examples/small.html'] }, { command: 'er_view', words: [traceOf('no-rt')] }]) {
    const { status, stdout, stderr } = await call(command, words, { PATH: `${path.join(folder, 'node')}:/usr/bin:/bin` });
    assert.strictEqual(status, 10, stderr);
    assert.strictEqual(stdout, '');
    assert.match(stderr, /^er_cli: .*the command rt .* is not there: .*README\.md, "Install"\n$/);
  }
});

test('no answer: nothing is written', { timeout: LONGEST_TEST }, async () => {
  const file = traceOf('refused-source');
  const { status, stderr } = await call('er_view', [file], { DOES: 'refuse' });
  assert.strictEqual(status, 10);
  assert.match(stderr, /error: a slip in the source\ner_cli: the source is refused\ner_view: the analyzer gave no report/);
  assert.ok(!fs.existsSync(file.replace('.trace', '.html')));
});

/** Processes of these tests, by the folder for temporary files that they were given. */
function processesLeft() {
  return fs.readdirSync('/proc').filter((name) => /^\d+$/.test(name)).flatMap((name) => {
    try {
      const isOwn = fs.readFileSync(`/proc/${name}/environ`, 'utf8').includes(`TMPDIR=${temporary}\0`);
      return isOwn ? [fs.readFileSync(`/proc/${name}/cmdline`, 'utf8')] : [];
    } catch {
      return []; // it has ended
    }
  });
}

test('a signal ends all', { timeout: LONGEST_TEST }, async () => {
  const file = traceOf('stopped');
  const command = start(path.join(clone, 'er_view'), [file], { cwd: folder, env: { ...env, DOES: 'sleep' } });
  while (!processesLeft().some((words) => words.startsWith('sleep\0'))) await new Promise((resolve) => setTimeout(resolve, 50));
  command.kill('SIGTERM');
  assert.strictEqual(await command.ended, 130);
  assert.deepStrictEqual([processesLeft(), fs.readdirSync(temporary)], [[], []]);
  assert.ok(!fs.existsSync(file.replace('.trace', '.html')));
});

test('--help and --version', { timeout: LONGEST_TEST }, async () => {
  for (const command of ['er_page', 'er_record', 'er_view', 'er_cli']) {
    const help = await call(command, ['--help']);
    assert.deepStrictEqual([help.status, help.stderr], [0, ''], command);
    assert.match(help.stdout, new RegExp(`^usage: (\\./)?${command} `));
    const version = await call(command, ['--version']);
    assert.deepStrictEqual([version.status, version.stdout, version.stderr], [0, `eventracer ${VERSION}\nstand-in logic 0\n`, ''], command);
  }
});
