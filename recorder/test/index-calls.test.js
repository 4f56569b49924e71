'use strict';
// The interface for programs, each function: plain data with a version, an abort before it starts and meanwhile, and an error for each code.

const assert = require('node:assert');
const fs = require('node:fs');
const path = require('node:path');
const { after, before, test } = require('node:test');
const { AttachedChromium, AttachedTab } = require('../browser/attached.js');
const { sleep } = require('../common/time.js');
const { record, attach, judge, list, replay, EventRacerError } = require('../index.js');
const { run, start, temporaryFolder } = require('./cleanup.js');
const { serveSuite } = require('./suite-server.js');

const TOP = path.join(__dirname, '..', '..');
const SHOP = path.join(TOP, 'examples', 'shop', 'index.html');
const CHROMIUM = process.env.CHROMIUM || '/usr/bin/chromium';
const LIMIT = { timeout: 240000 };
const LONGEST = 200000;
const folder = temporaryFolder('index-calls');
const trace = path.join(folder, 'shop.trace');
const suiteTraces = path.join(folder, 'suite');
const driver = path.join(__dirname, 'drivers', 'order_suite.js');
/** @type {Awaited<ReturnType<typeof serveSuite>>} */
let server;
/** @type {string} */
let command;
before(async () => {
  server = await serveSuite();
  command = `${process.execPath} ${driver} ${path.join(TOP, 'er_browser')} ${server.origin}`;
});
after(() => server.close());

/** @param {string} name */
const file = (name) => path.join(folder, `${name}.trace`);
/** @type {(promise: Promise<unknown>, code: string, message?: RegExp) => Promise<void>} */
const fails = (promise, code, message = /./) => assert.rejects(promise, (fault) => {
  assert.ok(fault instanceof EventRacerError, String(fault));
  assert.strictEqual(fault.code, code, fault.message);
  assert.match(fault.message, message);
  return true;
});
/** @param {{format: 1}} data */
function isPlain(data) {
  assert.strictEqual(data.format, 1);
  assert.deepStrictEqual(JSON.parse(JSON.stringify(data)), data);
}

/**
 * A browser of another program, with its port; it ends with this process.
 * @param {string} name
 */
async function startBrowser(name) {
  const profile = path.join(folder, name);
  const browser = start(CHROMIUM, ['--headless', '--no-sandbox', '--disable-gpu', '--remote-debugging-port=0', `--user-data-dir=${profile}`, 'about:blank']);
  const port = path.join(profile, 'DevToolsActivePort');
  for (let k = 0; k < 600 && !(fs.existsSync(port) && fs.readFileSync(port, 'utf8').includes('\n')); k++) await sleep(100);
  return { browser, endpoint: `127.0.0.1:${fs.readFileSync(port, 'utf8').split('\n')[0]}` };
}

/** The process of the call that runs. */
function callProcess() {
  const isCall = (/** @type {string} */ pid) => {
    try {
      const [, parent] = /\) \w (\d+) /.exec(fs.readFileSync(`/proc/${pid}/stat`, 'utf8')) || [];
      return Number(parent) === process.pid && fs.readFileSync(`/proc/${pid}/cmdline`, 'utf8').includes('index-task.js');
    } catch {
      return false; // it has ended
    }
  };
  return Number(fs.readdirSync('/proc').find((pid) => /^\d+$/.test(pid) && isCall(pid)));
}

test('each function returns plain data with a version', LIMIT, async () => {
  isPlain(await record(SHOP, { trace }));
  isPlain(await judge(trace));
  const { problems, ...listed } = await list([trace], { sarif: path.join(folder, 'a.sarif'), junit: path.join(folder, 'a.xml'), html: path.join(folder, 'html') });
  isPlain(listed);
  assert.ok(['a.sarif', 'a.xml', 'html/index.html'].every((name) => fs.statSync(path.join(folder, name)).size > 100));
  isPlain(await replay(trace, problems[0].races[0].race));
  const { browser, endpoint } = await startBrowser('attached');
  const attached = await attach(endpoint, { trace: file('attached'), time: 1 }).catch((fault) => fault);
  assert.strictEqual(attached.code, 'NO_PAGE', String(attached)); // its driver loaded none
  browser.kill();
});

test('a page that another program loads', LIMIT, async () => {
  const { browser, endpoint } = await startBrowser('driven');
  const [host, port] = endpoint.split(':');
  try {
    const tab = await AttachedTab.first(await AttachedChromium.connect({ host, port: Number(port) }));
    await tab.send('Page.enable');
    const recording = attach(endpoint, { trace: file('driven'), time: 3 });
    for (let k = 0; k < 600 && !await tab.evaluate('typeof __erAttached !== "undefined" && __erAttached'); k++) await sleep(100);
    await tab.send('Page.navigate', { url: `${server.origin}/shop/index.html` });
    const recorded = await recording;
    isPlain(recorded);
    assert.ok(recorded.actions > 3, JSON.stringify(recorded));
  } finally {
    browser.kill();
  }
});

test('a race of a suite is replayed by its command, and folders are listed', LIMIT, async () => {
  const { status, stderr } = await run('/bin/sh', ['-c', command], { env: { ...process.env, ER_TRACES: suiteTraces, TMPDIR: folder }, longest: LONGEST });
  assert.strictEqual(status, 0, stderr);
  const { traces, problems: all } = await list([suiteTraces]);
  const problems = all.filter(({ hasLine }) => hasLine);
  assert.deepStrictEqual([traces.length, problems.length], [1, 2]);
  const reversal = await replay(traces[0], problems[0].name, { command });
  isPlain(reversal);
  assert.deepStrictEqual([reversal.isFound, reversal.verdict, reversal.effect, reversal.suiteStatus], [true, 'turned', 'a failing test', 1], JSON.stringify(reversal));
  assert.ok(fs.existsSync(path.join(reversal.folder, 'replays.json')));
  await fails(replay(traces[0], problems[0].name, { command: 'no-such-command-here' }), 'USAGE', /the command cannot be run/);
  await fails(replay(traces[0], problems[0].name, { command: 'echo none' }), 'NO_PAGE', /loaded no page/);
  await fails(replay(traces[0], 99, { command }), 'USAGE', /there is no race 99/);
});

test('an abort before the start', LIMIT, async () => {
  const controller = new AbortController();
  controller.abort(new Error('enough'));
  const { signal } = controller;
  const calls = [() => record(SHOP, { trace, signal }), () => attach('127.0.0.1:1', { trace, signal }), () => judge(trace, { signal }), () => list([trace], { signal }), () => replay(trace, 1, { signal })];
  for (const call of calls) await fails(call(), 'ABORTED');
});

test('an abort meanwhile: each call ends soon, and leaves no process', LIMIT, async () => {
  const { browser, endpoint } = await startBrowser('aborted');
  const [load] = fs.readdirSync(suiteTraces).filter((name) => name.endsWith('.trace'));
  /** @type {[calls: (signal: AbortSignal) => Promise<unknown>, after: number][]} */
  const calls = [
    [(signal) => record(SHOP, { trace: file('aborted'), actions: ['wait:60000'], time: 100, signal }), 3000],
    [(signal) => attach(endpoint, { trace: file('aborted-too'), time: 100, signal }), 2000],
    [(signal) => judge(trace, { signal }), 100],
    [(signal) => list(Array(200).fill(trace), { signal }), 1000],
    [(signal) => replay(trace, 1, { signal }), 4000],
    [(signal) => replay(path.join(suiteTraces, load), 1, { command: 'sleep 100', signal }), 3000],
  ];
  for (const [call, milliseconds] of calls) {
    const controller = new AbortController();
    const ended = fails(call(controller.signal), 'ABORTED');
    await sleep(milliseconds);
    const begin = Date.now();
    controller.abort();
    await ended;
    assert.ok(Date.now() - begin < 20000, `${Date.now() - begin} ms`);
    assert.ok(Number.isNaN(callProcess()), 'its process has ended');
  }
  browser.kill();
});

test('wrong arguments', LIMIT, async () => {
  await fails(/** @type {any} */ (record)(SHOP), 'USAGE', /options are missing/);
  await fails(/** @type {any} */ (record)(undefined, { trace }), 'USAGE', /url is no text/);
  await fails(/** @type {any} */ (list)(trace), 'USAGE', /traces is no list/);
  await fails(/** @type {any} */ (replay)(trace), 'USAGE', /problem is no text/);
  await fails(/** @type {any} */ (list)([trace], { what: 1 }), 'USAGE', /unknown option: what/);
  await fails(list([trace], { writesKnown: true }), 'USAGE', /--write-known requires --known/);
  await fails(list([trace], { known: path.join(folder, 'none.known') }), 'USAGE', /there is no such file/);
  await fails(replay(trace, 'x'), 'USAGE', /there is no problem x/);
  await fails(replay(trace, 1, { command: 'true', mayChange: true }), 'USAGE', /unknown option: --yes/);
  await fails(replay(trace, 1, { time: -1 }), 'USAGE', /--time/);
});

test('the other codes: a step that is not done, no analyzer, a process that is killed, a file that cannot be written, nothing there', LIMIT, async () => {
  const undone = file('undone');
  const recording = await record(SHOP, { trace: undone, actions: ['click:#nowhere'] });
  assert.deepStrictEqual([recording.isComplete, recording.why], [false, 'NOT_DONE']);
  await fails(replay(undone, 1), 'NOT_DONE');
  const code = `require(${JSON.stringify(path.join(TOP, 'recorder', 'index.js'))}).judge(${JSON.stringify(trace)}).catch(({ code, message }) => console.log(code, message))`;
  const { stdout } = await run(process.execPath, ['-e', code], { env: { ...process.env, ER_CLI: path.join(folder, 'no-analyzer') }, longest: LONGEST });
  assert.match(stdout, /^NO_ANALYZER .*cannot be run/);
  const killed = fails(record(SHOP, { trace: file('killed'), actions: ['wait:30000'], time: 60 }), 'INTERNAL', /ended without an answer/);
  await sleep(1000);
  process.kill(callProcess(), 'SIGKILL');
  await killed;
  await fails(list([trace], { sarif: '/nowhere/a.sarif' }), 'FAILED', /cannot be written/);
  await fails(list([path.join(folder, 'no-folder')]), 'NO_PAGE', /there is no file/);
  fs.mkdirSync(path.join(folder, 'empty'));
  await fails(list([path.join(folder, 'empty')]), 'NO_PAGE', /there is no trace/);
});
