'use strict';
// er_browser where nothing can be recorded: the suite goes on, and a line says why, on standard error and in the log of the folder.

const assert = require('node:assert');
const { spawnSync } = require('node:child_process');
const fs = require('node:fs');
const path = require('node:path');
const { after, before, test } = require('node:test');
const { sleep } = require('../common/time.js');
const { waitForWriters, tracesIn } = require('../driven/trace-folder.js');
const { run, start, temporaryFolder } = require('./cleanup.js');
const { Driver } = require('./drivers/protocol_driver.js');
const { serveSuite } = require('./suite-server.js');

const TOP = path.join(__dirname, '..', '..');
const BROWSER = path.join(TOP, 'er_browser');
const LIMIT = { timeout: 120000 };
const LONGEST = 60000;
const folder = temporaryFolder('suite-faults');
/** @type {{origin: string, close: () => void}} */
let server;
before(async () => { server = await serveSuite(); });
after(() => server.close());

/**
 * Starts the browser with the shop.
 * @param {string} traces @param {string} profile @param {string[]} more
 */
const open = (traces, profile, more = []) => start(BROWSER, ['--headless', '--no-sandbox', '--disable-gpu', '--no-first-run',
  `--user-data-dir=${path.join(folder, profile)}`, ...more, `${server.origin}/shop/index.html`], { env: { ...process.env, ER_TRACES: traces, TMPDIR: folder } });

/** @param {() => boolean} isDue */
async function until(isDue) {
  for (const last = Date.now() + LONGEST; !isDue() && Date.now() < last;) await sleep(100);
  assert.ok(isDue());
}

/** @param {string} traces */
const logOf = (traces) => fs.readdirSync(traces).filter((name) => name.endsWith('.log')).map((name) => fs.readFileSync(path.join(traces, name), 'utf8')).join('');

/** @param {import('./cleanup.js').Command} browser */
async function end(browser) {
  browser.kill('SIGTERM');
  await browser.ended;
}

test('a folder that cannot be written: a line, and the browser', LIMIT, async () => {
  const file = path.join(folder, 'file');
  fs.writeFileSync(file, '');
  const browser = open(path.join(file, 'traces'), 'unwritable', ['--remote-debugging-port=0']);
  await until(() => /DevTools listening/.test(browser.said));
  assert.match(browser.said, /^er_browser: nothing is recorded: the folder .* cannot be written$/m);
  await end(browser);
});

test('a full disk: a line in the log and on standard error, and the browser goes on', LIMIT, async (t) => {
  const traces = path.join(folder, 'small');
  fs.mkdirSync(traces);
  if (spawnSync('mount', ['-t', 'tmpfs', '-o', 'size=8k', 'none', traces]).status !== 0) {
    t.skip('no tmpfs can be mounted here');
    return;
  }
  try {
    const browser = open(traces, 'full');
    await until(() => /a page load is not recorded: .* cannot be written: ENOSPC/.test(browser.said));
    assert.strictEqual(browser.exitCode, null);
    await end(browser);
    assert.ok(await waitForWriters(traces, LONGEST));
    assert.match(logOf(traces), /^er_browser: a page load is not recorded: .*ENOSPC/m);
    assert.deepStrictEqual(fs.readdirSync(traces).filter((name) => !name.endsWith('.log')).filter((name) => !/\.trace$/.test(name)), []);
  } finally {
    spawnSync('umount', ['-l', traces]);
  }
});

test('two recorders on one browser: the second one says so, and the first one records', LIMIT, async () => {
  const traces = path.join(folder, 'two');
  const browser = open(traces, 'both');
  await until(() => fs.existsSync(traces) && tracesIn(traces).length > 0);
  const second = open(traces, 'both');
  await until(() => /another recorder \(process \d+\) records the browser/.test(second.said));
  assert.match(logOf(traces), /nothing is recorded: another recorder/);
  await end(second);
  const [port] = fs.readFileSync(path.join(folder, 'both', 'DevToolsActivePort'), 'utf8').split('\n');
  const attached = await run(path.join(TOP, 'er_record'), ['--attach', `127.0.0.1:${port}`, path.join(folder, 'third.trace')], { longest: LONGEST });
  assert.strictEqual(attached.status, 5, attached.stderr);
  assert.match(attached.stderr, /another recorder records the first tab/);
  await end(browser);
  assert.ok(await waitForWriters(traces, LONGEST));
  assert.ok(fs.readFileSync(tracesIn(traces)[0], 'utf8').endsWith('\nend\n'));
});

test('a page that the driver writes into an empty one: a line says that it is not recorded', LIMIT, async () => {
  const traces = path.join(folder, 'written');
  Object.assign(process.env, { ER_TRACES: traces, TMPDIR: folder });
  const driver = await Driver.launch(BROWSER);
  process.on('exit', () => driver.killNow());
  try {
    const tab = await driver.newTab();
    assert.strictEqual(await tab.value("document.open(); document.write('<p>text<script>var seen = 1;</script>'); document.close(); seen"), 1);
    await until(() => /not recorded: pages that a program writes into an empty page/.test(logOf(traces)));
    await tab.load(`${server.origin}/shop/index.html`);
  } finally {
    delete process.env.ER_TRACES;
    await driver.close();
  }
  assert.ok(await waitForWriters(traces, LONGEST));
  assert.strictEqual(tracesIn(traces).length, 1);
});

test('a service worker: a line says what is not recorded', LIMIT, async () => {
  const traces = path.join(folder, 'worker');
  Object.assign(process.env, { ER_TRACES: traces, TMPDIR: folder });
  const driver = await Driver.launch(BROWSER);
  process.on('exit', () => driver.killNow());
  try {
    const tab = await driver.newTab();
    await tab.load(`${server.origin}/worker`);
    await tab.waitForValue('isReady');
    await until(() => /not recorded: the accesses of scripts that a service worker answers \(http:.*worker-script\.js\)/.test(logOf(traces)));
  } finally {
    delete process.env.ER_TRACES;
    await driver.close();
  }
  assert.ok(await waitForWriters(traces, LONGEST));
});

test('a clock of a program: the recording and er_suite say what has no timer', LIMIT, async () => {
  const traces = path.join(folder, 'clock');
  Object.assign(process.env, { ER_TRACES: traces, TMPDIR: folder });
  const driver = await Driver.launch(BROWSER);
  process.on('exit', () => driver.killNow());
  try {
    const tab = await driver.newTab();
    await tab.load(`${server.origin}/clock`);
    await tab.waitForValue('isSet');
    await tab.value('pass()');
    await tab.load(`${server.origin}/clock?watched`); // as zone.js: the date stays
    await tab.waitForValue('isSet');
  } finally {
    delete process.env.ER_TRACES;
    await driver.close();
  }
  assert.ok(await waitForWriters(traces, LONGEST));
  const { stderr } = await run(path.join(TOP, 'er_suite'), [traces], { longest: LONGEST });
  assert.match(stderr, /^ {2}not recorded: clocks that a program put in the place of the browser's, whose callbacks have no timer: 1, in 1 page load$/m);
});
