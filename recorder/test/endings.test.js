'use strict';
// How the commands end: what they write and print, their exit statuses, and that no browser and no folder is left.

const assert = require('node:assert');
const { spawn } = require('node:child_process');
const fs = require('node:fs');
const path = require('node:path');
const { test } = require('node:test');
const { run: runProgram, start, temporaryFolder } = require('./cleanup.js');

const TOP = path.join(__dirname, '..', '..');
const PAGES = path.join(__dirname, 'pages');
const LONGEST_RUN = 90000;
const folder = temporaryFolder('test');

/** @param {string} name */
const traceFile = (name) => path.join(folder, `${name}.trace`);
/**
 * A folder for temporary files of its own, so that what is left is seen.
 * @param {string} name
 */
function temporary(name) {
  const own = path.join(folder, `temporary-${name}`);
  fs.mkdirSync(own, { recursive: true });
  return own;
}

/** @param {string} own */
const withFolder = (own) => ({ cwd: folder, env: { ...process.env, TMPDIR: own } });
/** @type {(command: string, words: string[], own: string) => ReturnType<typeof runProgram>} */
const run = (command, words, own) => runProgram(path.join(TOP, command), words, { ...withFolder(own), longest: LONGEST_RUN });

/** @param {string} file */
function isWhole(file) {
  const text = fs.readFileSync(file, 'utf8');
  return /^webtrace [123]\n/.test(text) && text.endsWith('\nend\n');
}

/**
 * The processes whose words name a folder.
 * @param {string} own
 */
function processesOf(own) {
  return fs.readdirSync('/proc').filter((name) => /^\d+$/.test(name)).filter((name) => {
    try {
      return fs.readFileSync(`/proc/${name}/cmdline`, 'utf8').includes(own);
    } catch {
      return false; // it has ended
    }
  });
}

/**
 * A process that a signal ends may need a moment, where much else runs.
 * @param {string} own
 */
async function assertNothingLeft(own) {
  for (let k = 0; k < 50 && processesOf(own).length > 0; k++) await new Promise((resolve) => setTimeout(resolve, 100));
  assert.deepStrictEqual(fs.readdirSync(own).filter((name) => name.startsWith('er-record-')), []);
  assert.deepStrictEqual(processesOf(own), []);
}

/**
 * Starts a piece of code in a process of its own, of whose output nothing is read at first.
 * @param {string} code
 */
function startUnread(code) {
  const command = spawn(process.execPath, ['-e', code], { cwd: path.join(__dirname, '..'), stdio: ['ignore', 'pipe', 'inherit'] });
  return Object.assign(command, { ended: new Promise((resolve) => { command.on('close', resolve); }) });
}

test('a command ends when all that it wrote is read', { timeout: 60000 }, async () => {
  const size = 4 << 20;
  const command = startUnread(`process.stdout.write('x'.repeat(${size})); require('./ending.js').endWith(3)`);
  await new Promise((resolve) => setTimeout(resolve, 1000));
  let read = 0;
  command.stdout.on('data', (piece) => { read += piece.length; });
  assert.deepStrictEqual([await command.ended, read], [3, size]);
});

test('a command ends where nobody reads what it writes', { timeout: 60000 }, async () => {
  const command = startUnread(`process.stdout.write('x'.repeat(${4 << 20})); require('./ending.js').endWith(3)`);
  command.stdout.destroy();
  assert.strictEqual(await command.ended, 3);
});

test('a recording writes the trace and its names', { timeout: 150000 }, async () => {
  const own = temporary('plain');
  const { status, stderr } = await run('er_record', [path.join(PAGES, 'timer.html'), traceFile('plain')], own);
  assert.strictEqual(status, 0, stderr);
  assert.match(stderr, /er_record: \d+ actions in [\d.]+ s/);
  assert.ok(isWhole(traceFile('plain')));
  const names = JSON.parse(fs.readFileSync(path.join(folder, 'plain.names.json'), 'utf8'));
  assert.strictEqual(Object.keys(names.timeouts).length, 2);
  assert.deepStrictEqual(names.timeouts[1].place.slice(1), [5, 1]);
  await assertNothingLeft(own);
});

test('wrong arguments: what is wrong, the usage, and where the options are', { timeout: 150000 }, async () => {
  const wrong = await run('er_record', ['a', 'b', '--what'], temporary('usage'));
  assert.strictEqual(wrong.status, 2);
  assert.match(wrong.stderr, /^er_record: unknown option: --what\nusage: er_record URL OUT\.trace \[options\]\n( {3}or: .*\n)+Run er_record --help for all options\n$/);
  for (const words of [[], ['a'], ['a', 'b', '--do', 'jump:x'], ['a', 'b', '--time', '0'], ['http://', 'b']]) {
    const { status, stderr } = await run('er_record', words, temporary('usage'));
    assert.strictEqual(status, 2, words.join(' '));
    assert.match(stderr, /^er_record: .+\nusage: er_record/);
  }
  for (const command of ['er_page', 'er_view', 'er_replay', 'er_suite']) assert.strictEqual((await run(command, [], temporary('usage'))).status, 2, command);
});

test('-h and --help print the help, wherever they are', { timeout: 150000 }, async () => {
  for (const words of [['-h'], ['--help'], ['x', '--help']]) {
    const { status, stdout, stderr } = await run('er_page', words, temporary('usage'));
    assert.deepStrictEqual([status, stderr], [0, ''], words.join(' '));
    assert.match(stdout, /^usage: er_page URL \[options\]\n[^]*\nExit status:\n/);
  }
});

test('an internal error is no race: its stack, how to report it, and a status of its own', { timeout: 60000 }, async () => {
  for (const code of ['async () => { null.page; }', "() => new Promise(() => { setTimeout(() => { throw new TypeError('no page'); }); })", '() => Promise.reject(3)']) {
    const { status, stdout, stderr } = await runProgram(process.execPath, ['-e', `require('./command.js').runCommand('er_page', ${code})`], { cwd: path.join(__dirname, '..'), longest: LONGEST_RUN });
    assert.deepStrictEqual([status, stdout], [70, ''], stderr);
    assert.match(stderr, /^er_page: internal error: (TypeError: .*\n +at |3\n)/);
    assert.match(stderr, /\ner_page: this is a bug of EventRacer: please report it .*\n$/);
  }
});

test('an analyzer in a folder that a shell would not take as it is', { timeout: 60000 }, async () => {
  const own = path.join(folder, "o'brien's; false");
  fs.mkdirSync(own);
  const program = path.join(own, 'er cli');
  fs.symlinkSync(path.resolve(process.env.ER_CLI || path.join(TOP, 'er_cli')), program);
  const file = path.join(own, 'a trace.trace');
  fs.copyFileSync(path.join(TOP, 'examples', 'timeouts.trace'), file);
  const view = await runProgram(path.join(TOP, 'er_view'), [file], { env: { ...process.env, ER_CLI: program }, longest: LONGEST_RUN });
  assert.deepStrictEqual([view.status, view.stderr], [1, '']);
  assert.match(fs.readFileSync(file.replace('.trace', '.html'), 'utf8'), /"command":"\.\/er_view '[^"]*o'\\\\''brien'\\\\''s; false\/a trace\.trace'"/);
  const none = await runProgram(path.join(TOP, 'er_view'), [file], { env: { ...process.env, ER_CLI: `${program} --json` }, longest: LONGEST_RUN });
  assert.strictEqual(none.status, 10);
  assert.match(none.stderr, /er cli --json cannot be run: /);
});

test('a page that does not load', { timeout: 150000 }, async () => {
  const own = temporary('missing');
  const missing = await run('er_record', [path.join(PAGES, 'not-there.html'), traceFile('missing')], own);
  assert.strictEqual(missing.status, 4, missing.stderr);
  assert.match(missing.stderr, /^er_record: .*not-there\.html did not load/m);
  assert.ok(isWhole(traceFile('missing')));
  const closed = await run('er_record', ['http://127.0.0.1:1/', traceFile('closed')], own);
  assert.strictEqual(closed.status, 4);
  assert.match(closed.stderr, /did not load: net::ERR_UNSAFE_PORT \(the browser requests nothing from this port: let the server listen at another one\)$/m);
  await assertNothingLeft(own);
});

/**
 * @param {string} name
 * @param {string} page
 * @param {string} own
 */
function startRecording(name, page, own) {
  const words = [path.join(PAGES, page), traceFile(name), '--do', 'wait:60000', '--time', '80'];
  return start(path.join(TOP, 'er_record'), words, withFolder(own));
}

/**
 * Waits until the recording says that actions came.
 * @param {ReturnType<typeof start>} child
 */
async function untilActions(child) {
  for (let k = 0; k < 300 && !/ [1-9]\d* actions/.test(child.said); k++) await new Promise((resolve) => setTimeout(resolve, 100));
}

test('Ctrl-C: what was recorded so far is written', { timeout: 150000 }, async () => {
  const own = temporary('stopped');
  const child = startRecording('stopped', 'interval.html', own);
  await untilActions(child);
  child.kill('SIGINT');
  assert.strictEqual(await child.ended, 130);
  assert.match(child.said, /er_record: stopped/);
  assert.ok(isWhole(traceFile('stopped')));
  assert.match(fs.readFileSync(traceFile('stopped'), 'utf8'), /\ntick 1\n/);
  await assertNothingLeft(own);
});

test('a browser that is gone: what was recorded so far is written', { timeout: 150000 }, async () => {
  const own = temporary('gone');
  const child = startRecording('gone', 'interval.html', own);
  await untilActions(child);
  for (const number of processesOf(own)) process.kill(Number(number), 'SIGKILL');
  assert.strictEqual(await child.ended, 5);
  assert.match(child.said, /er_record: the browser has gone/);
  assert.ok(isWhole(traceFile('gone')));
  await assertNothingLeft(own);
});

test('a deep script on a machine with a small stack', { timeout: 150000 }, async () => {
  fs.writeFileSync(path.join(folder, 'deep.html'), `<!doctype html><script>function deep() { return a${'.b()'.repeat(8000)} }</script>`);
  const { status, stderr } = await runProgram('bash', ['-c', 'ulimit -s 2048; exec "$0" "$@"', path.join(TOP, 'er_record'), 'deep.html', 'deep.trace'], { cwd: folder, longest: LONGEST_RUN });
  assert.strictEqual(status, 0, stderr);
  assert.match(stderr, /nested too deeply/);
});

test('a page without an end is recorded for as long as was said', { timeout: 150000 }, async () => {
  const own = temporary('endless');
  const { status, stderr } = await run('er_record', [path.join(PAGES, 'endless.html'), traceFile('endless'), '--time', '4'], own);
  assert.strictEqual(status, 4, stderr);
  assert.match(stderr, /^er_record: the recording is not complete: the time of 4 s was over before the page was (loaded|quiet)$/m);
  assert.ok(isWhole(traceFile('endless')));
  await assertNothingLeft(own);
});

test('from a page to its races', { timeout: 150000 }, async () => {
  const own = temporary('page');
  const { status, stdout, stderr } = await run('er_page', [path.join(TOP, 'examples/shop/index.html'), '--slow', '300', '--do', 'early click:#add', '--no-replay'], own);
  assert.strictEqual(status, 1, stderr);
  assert.match(stdout, /^ {4}[0-9a-f]{12} \(for races\.known\)/m);
  for (const ending of ['trace', 'names.json', 'report', 'html']) assert.ok(fs.existsSync(path.join(folder, 'shop.races', `page.${ending}`)), ending);
  const clean = await run('er_page', [path.join(PAGES, 'no-race.html')], own);
  assert.strictEqual(clean.status, 0, clean.stderr);
  assert.match(clean.stdout, /^No race\. Done in the page: nothing clicked or typed \(--clicks N, --do STEP\)\.$/m);
  await assertNothingLeft(own);
});

test('a trace that is refused', { timeout: 150000 }, async () => {
  const file = traceFile('refused');
  fs.writeFileSync(file, 'webtrace 1\ntimer 9\nend\n');
  const { status, stderr } = await run('er_view', [file], temporary('view'));
  assert.strictEqual(status, 3);
  assert.match(stderr, /refused at line 2: unknown/);
});

test('a test that a signal ends leaves nothing', { timeout: 150000 }, async () => {
  const own = temporary('ended');
  const env = { ...process.env, TMPDIR: own, NODE_TEST_CONTEXT: undefined };
  const command = start(process.execPath, ['--stack-size=4000', path.join(__dirname, 'pages.test.js')], { env });
  const hasBrowser = () => fs.readdirSync(own).some((name) => fs.existsSync(path.join(own, name, 'Default')));
  for (let k = 0; k < 600 && !hasBrowser(); k++) await new Promise((resolve) => setTimeout(resolve, 100));
  assert.ok(hasBrowser(), command.said);
  command.kill('SIGTERM');
  assert.strictEqual(await command.ended, 143);
  await assertNothingLeft(own);
});
