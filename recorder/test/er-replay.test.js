'use strict';
// ./er_replay: a race of an earlier recording, found again by its name; and bad input, which is refused in one line.

const assert = require('node:assert');
const fs = require('node:fs');
const path = require('node:path');
const { test, before } = require('node:test');
const { run, temporaryFolder } = require('./cleanup.js');
const { PAGES } = require('./support.js');

const TOP = path.join(__dirname, '..', '..');
const folder = temporaryFolder('er-replay-test');
const TRACE = path.join(folder, 'site', 'kept.trace');
const NAMES = path.join(folder, 'site', 'kept.names.json');
/** A busy machine takes long for the three recordings and more of one command. */
const LONGEST = 280000;
/** @type {(name: string, words: string[]) => ReturnType<typeof run>} */
const command = (name, words) => run(path.join(TOP, name), words, { longest: LONGEST, cwd: folder });

before(async () => {
  fs.mkdirSync(path.join(folder, 'site'));
  fs.copyFileSync(path.join(PAGES, 'race-typed-text.html'), path.join(folder, 'site', 'page.html'));
  const words = ['site/page.html?a=b', TRACE, '--do', 'wait:500', '--do', 'type:#field:tea'];
  assert.strictEqual((await command('er_record', words)).status, 0);
});

/**
 * Status and the one line that is said.
 * @param {string[]} words
 * @param {number} status
 * @param {RegExp} said
 */
async function refused(words, status, said) {
  const answer = await command('er_replay', words);
  assert.strictEqual(answer.status, status, answer.stderr);
  assert.match(answer.stderr, said);
  return answer.stderr.trim().split('\n').length;
}

/** @typedef {{digest: string, page: string, words: string[], isAttached?: boolean}} HowRecorded as the names tell it */

/**
 * A copy of the recording, with other names.
 * @param {string} name
 * @param {(recording: HowRecorded) => HowRecorded|undefined} change undefined: the names do not have it
 */
function copyWith(name, change) {
  const copy = path.join(folder, 'site', `${name}.trace`);
  fs.copyFileSync(TRACE, copy);
  const names = JSON.parse(fs.readFileSync(NAMES, 'utf8'));
  fs.writeFileSync(copy.replace(/trace$/, 'names.json'), JSON.stringify({ ...names, recording: change(names.recording) }));
  return copy;
}

test('bad input is refused in a line', async () => {
  assert.strictEqual((await command('er_replay', ['--help'])).status, 0);
  await refused([TRACE], 2, /--race K is missing/);
  await refused([TRACE, '--race', 'x'], 2, /--race takes a whole number from 1 on: x/);
  await refused([TRACE, '--race', '1', '--fast'], 2, /unknown option: --fast/);
  assert.strictEqual(await refused(['no.trace', '--race', '1'], 4, /^er_replay: there is no file no\.trace$/m), 1);
  assert.strictEqual(await refused([TRACE, '--race', '99'], 2, /^er_replay: there is no race 99 in .*: it has \d+$/m), 1);
  assert.strictEqual(await refused([copyWith('old', () => undefined), '--race', '1'], 4, /does not say how the page was recorded: record the page again$/m), 1);
  assert.strictEqual(await refused([copyWith('other', (recording) => ({ ...recording, digest: 'x' })), '--race', '1'], 4, /belongs to another trace: /m), 1);
  assert.strictEqual(await refused([copyWith('gone', (recording) => ({ ...recording, page: 'gone.html' })), '--race', '1'], 4, /the page is gone: there is no .*gone\.html$/m), 1);
  assert.strictEqual(await refused([copyWith('newer', (recording) => ({ ...recording, words: [...recording.words, '--newer'] })), '--race', '1'], 4, /has options that this version does not know: unknown option: --newer$/m), 1);
  assert.strictEqual(await refused([copyWith('driven', (recording) => ({ ...recording, isAttached: true })), '--race', '1'], 4, /was recorded with --attach/), 1);
  fs.writeFileSync(path.join(folder, 'site', 'bad.names.json'), '{');
  fs.copyFileSync(TRACE, path.join(folder, 'site', 'bad.trace'));
  assert.strictEqual(await refused([path.join(folder, 'site', 'bad.trace'), '--race', '1'], 4, /is not a names file of er_record/), 1);
});

test('a race is found again, also where the page and the trace were moved and the page has a further line', { timeout: LONGEST + 10000 }, async () => {
  const moved = path.join(folder, 'moved');
  fs.cpSync(path.join(folder, 'site'), moved, { recursive: true });
  const page = path.join(moved, 'page.html');
  fs.writeFileSync(page, fs.readFileSync(page, 'utf8').replace('<input', '<p>new</p>\n<input'));
  const { status, stdout, stderr } = await command('er_replay', ['moved/kept.trace', '--race', '1']);
  assert.strictEqual(status, 0, stderr);
  assert.match(stdout, /found again/);
  assert.match(stdout, /^What is typed into input#field is overwritten at \S+: a lost input: value of input#field: books tea in the recorded order, books ea in the other order/m);
  const { races } = JSON.parse(fs.readFileSync(path.join(moved, 'kept.replay', 'page.replay.json'), 'utf8'));
  assert.strictEqual(races.length, 1);
  for (const file of ['page.trace', 'page.names.json', 'page.report', 'page.html']) assert.ok(fs.existsSync(path.join(moved, 'kept.replay', file)));
});

test('a race that does not come any more is told', { timeout: LONGEST + 10000 }, async () => {
  const page = path.join(folder, 'site', 'page.html');
  const text = fs.readFileSync(page, 'utf8');
  fs.writeFileSync(page, '<!doctype html><input id="field">');
  const { status, stdout, stderr } = await command('er_replay', [TRACE, '--race', '1']);
  fs.writeFileSync(page, text);
  assert.strictEqual(status, 1, stderr);
  assert.match(stdout, /not found again: it did not come in 3 recordings of the page/);
});
