'use strict';
// A browser in the place of a test suite's own: which page loads are recorded beside which driver, what is left where a browser or the recorder is killed,
// and the list over all of them.

const assert = require('node:assert');
const fs = require('node:fs');
const path = require('node:path');
const { after, before, test } = require('node:test');
const { sleep } = require('../common/time.js');
const { waitForWriters, tracesIn, slugOf } = require('../driven/trace-folder.js');
const { OpenedWindow } = require('../driven/opened-window.js');
const { policyWithMarks, holdAt } = require('../browser/content-policy.js');
const { run, start, temporaryFolder } = require('./cleanup.js');
const { Driver } = require('./drivers/protocol_driver.js');
const { serveSuite } = require('./suite-server.js');

const TOP = path.join(__dirname, '..', '..');
const BROWSER = path.join(TOP, 'er_browser');
const LIMIT = { timeout: 180000 };
const LONGEST_RUN = 150000;
const LONGEST_WRITING = 30000;
const folder = temporaryFolder('suite-test');
const hasSelenium = fs.existsSync('/usr/lib/python3/dist-packages/selenium') && fs.existsSync('/usr/bin/chromedriver');
const hasWebSockets = fs.existsSync(process.env.NODE_WS || '/usr/share/nodejs/ws');
const LOADS = ['account', 'help', 'login', 'mock', 'shop-index', 'shop-index'];
/** @type {Awaited<ReturnType<typeof serveSuite>>} */
let server;
before(async () => { server = await serveSuite(); });
after(() => server.close());

/**
 * Runs a program of drivers/ with the browser, and answers what it said and the traces that came of it.
 * @param {string} name
 * @param {string} program
 * @param {string[]} words
 */
async function drive(name, program, words) {
  const traces = path.join(folder, name);
  const env = { ...process.env, ER_TRACES: traces, ER_TEST: name, TMPDIR: folder };
  const { status, stdout, stderr } = await run(program, words, { env, longest: LONGEST_RUN });
  assert.strictEqual(status, 0, stdout + stderr);
  assert.ok(await waitForWriters(traces, LONGEST_WRITING), 'the recorder has not ended');
  return { traces, files: tracesIn(traces), stdout };
}

/** @type {(name: string, carrier: 'pipe'|'port', end?: 'close'|'kill') => ReturnType<typeof drive>} */
const driveProtocol = (name, carrier, end = 'close') => drive(name, process.execPath, [path.join(__dirname, 'drivers', 'protocol_suite.js'), BROWSER, server.origin, carrier, end]);
/** @param {string[]} words */
const suite = (...words) => run(path.join(TOP, 'er_suite'), words, { longest: LONGEST_RUN });
/** @param {string} file */
const pageOf = (file) => /-\d{3}-127\.0\.0\.1-\d+-(.*)\.trace$/.exec(file)?.[1] ?? assert.fail(`no name of a load: ${file}`);
/** @param {string} file */
const linesOf = (file) => fs.readFileSync(file, 'utf8').trimEnd().split('\n');
/** @param {string} file */
const namesOf = (file) => JSON.parse(fs.readFileSync(file.replace(/trace$/, 'names.json'), 'utf8'));
/** @type {(files: string[], page: string) => string} */
const fileOf = (files, page) => files.find((file) => pageOf(file) === page) ?? assert.fail(`no trace of ${page}`);

/**
 * Each load has a whole trace of its own, and what the driver's code set is in none.
 * @param {string[]} files
 */
function checkTraces(files, loads = LOADS) {
  assert.deepStrictEqual(files.map(pageOf).sort(), loads);
  for (const file of files) {
    const lines = linesOf(file);
    assert.strictEqual(lines[lines.length - 1], 'end', file);
    assert.strictEqual(lines[1], 'parse 0 1 plain', file);
    assert.ok(!lines.some((line) => /ofTheDriver|cdc_|se_exported/.test(line)), file);
  }
  assert.ok(linesOf(fileOf(files, 'account')).includes('w var 0 orders'));
  assert.ok(linesOf(fileOf(files, 'account')).some((line) => /^(?:fire|inline) \d+ \d+ click$/.test(line)));
  assert.ok(linesOf(fileOf(files, 'help')).includes('w var 0 topic'));
}

test('a suite over the pipe: each load of each tab, and what the driver answers itself', LIMIT, async () => {
  const { files } = await driveProtocol('pipe', 'pipe');
  checkTraces(files);
  assert.ok(linesOf(fileOf(files, 'mock')).includes('w var 0 mocked'), 'a script that the driver answered');
  assert.ok(linesOf(fileOf(files, 'mock')).includes('w var 0 ofPage'), 'a page that the driver answered');
  assert.ok(linesOf(fileOf(files, 'account')).some((line) => /^fire \d+ \d+ click$/.test(line)), "a click by the driver's code is no part of what ran before");
  const { load, recording } = namesOf(fileOf(files, 'help'));
  assert.strictEqual(load.test.name, 'pipe');
  assert.match(load.test.words, /protocol_suite\.js/);
  assert.ok(load.opener && load.isOver && load.number > 0);
  assert.strictEqual(recording.isAttached, true);
});

test('the list of a suite: one of all loads, known races, JSON, SARIF, a page of links', LIMIT, async () => {
  const traces = path.join(folder, 'pipe');
  const known = path.join(folder, 'suite.known');
  const first = await suite(traces, '--known', known, '--write-known', '--sarif', path.join(folder, 'suite.sarif'));
  assert.strictEqual(first.status, 1, first.stderr);
  assert.match(first.stdout, /^shop\.js:9 {2}A click at button#add is lost until its handler is registered +late handler\n[^]*? {4}runs: seen in 2 of 6 loads: [^]*?\n {4}fix: .*\n {4}[0-9a-f]{12} \(for races\.known\)/m);
  assert.match(first.stdout, /^ {4}writes +topic /m);
  assert.match(first.stdout, /6 page loads, index\.html$/m);
  const again = await suite(traces, '--known', known, '--json');
  assert.strictEqual(again.status, 0, again.stderr);
  /** @type {{problems: {isKnown: boolean, fails: boolean}[], loads: {number: number}[], runs: number}} */
  const { problems, loads, runs } = JSON.parse(again.stdout);
  assert.ok(problems.length > 5 && problems.every(({ isKnown, fails }) => isKnown || !fails));
  assert.strictEqual(runs, 6);
  assert.deepStrictEqual(loads.map(({ number }) => number), loads.map(({ number }) => number).sort((a, b) => a - b));
  assert.strictEqual(JSON.parse(fs.readFileSync(path.join(folder, 'suite.sarif'), 'utf8')).version, '2.1.0');
  const links = [...fs.readFileSync(path.join(traces, 'index.html'), 'utf8').matchAll(/href="([^"]*)"/g)].map(([, link]) => decodeURIComponent(link));
  assert.ok(links.length > 6 && links.every((link) => fs.existsSync(path.join(traces, link))), links.join(' '));
});

test('several folders are one list, with JUnit XML, and a page that stands without the traces', LIMIT, async () => {
  const traces = path.join(folder, 'pipe');
  const other = path.join(folder, 'pipe-too');
  fs.cpSync(traces, other, { recursive: true });
  const [xml, html] = [path.join(folder, 'suite.xml'), path.join(folder, 'html')];
  const { status, stdout, stderr } = await suite(traces, other, `${traces}/`, '--junit', xml, '--html', html);
  assert.strictEqual(status, 1, stderr);
  assert.match(stdout, /seen in 4 of 12 loads.*: \S+\.html \(pipe\)$/m);
  assert.match(stdout, /12 page loads, .*html\/index\.html$/m);
  assert.match(fs.readFileSync(xml, 'utf8'), /<testsuites name="EventRacer" tests="\d+" failures="[1-9]\d*"/);
  const links = [...fs.readFileSync(path.join(html, 'index.html'), 'utf8').matchAll(/href="([^"]*)"/g)].map(([, link]) => decodeURIComponent(link));
  assert.ok(links.length > 12 && links.every((link) => link.startsWith('views/') && fs.existsSync(path.join(html, link))), links.join(' '));
});

test('a suite over the port', { ...LIMIT, skip: hasWebSockets ? false : 'node-ws is not installed' }, async () => {
  const { files } = await driveProtocol('port', 'port');
  checkTraces(files);
});

test('a suite with Selenium', { ...LIMIT, skip: hasSelenium ? false : 'python3-selenium and chromium-driver are not installed' }, async () => {
  const { files } = await drive('selenium', '/usr/bin/python3', [path.join(__dirname, 'drivers', 'selenium_suite.py'), BROWSER, server.origin]);
  checkTraces(files, LOADS.filter((one) => one !== 'mock'));
  assert.match(namesOf(files[0]).load.test.words, /selenium_suite\.py/);
});

test('a browser that its driver kills', LIMIT, async () => {
  const { files, stdout } = await driveProtocol('kill', 'pipe', 'kill');
  assert.match(stdout, /^kill: .*SIGKILL/m);
  checkTraces(files);
  assert.ok(linesOf(fileOf(files, 'mock')).includes('w var 0 ofPage'), 'the last task');
});

test('a recorder that is killed: the suite goes on, and what came to rest is there', LIMIT, async () => {
  const traces = path.join(folder, 'dies');
  Object.assign(process.env, { ER_TRACES: traces, TMPDIR: folder });
  const driver = await Driver.launch(BROWSER);
  process.on('exit', () => driver.killNow());
  try {
    const tab = await driver.newTab();
    await tab.load(`${server.origin}/shop/index.html`);
    for (let k = 0; k < 300 && !tracesIn(traces).length; k++) await sleep(100);
    const [lock] = fs.readdirSync(traces).filter((name) => name.startsWith('.recording-'));
    process.kill(Number(lock.replace('.recording-', '')), 'SIGKILL');
    await tab.load(`${server.origin}/shop/index.html?again`);
    assert.strictEqual(await tab.value('document.title'), 'A small shop');
  } finally {
    delete process.env.ER_TRACES;
    const { status } = await driver.close();
    assert.strictEqual(status, 0);
  }
  assert.strictEqual(linesOf(tracesIn(traces)[0]).pop(), 'end');
  assert.ok(await waitForWriters(traces, 1000), 'the dead one is not waited for');
});

test('a page that the words of the browser name, and no protocol', LIMIT, async () => {
  const traces = path.join(folder, 'named');
  const words = ['--headless', '--no-sandbox', '--disable-gpu', '--no-first-run', `--user-data-dir=${path.join(folder, 'named-profile')}`, `${server.origin}/shop/index.html`];
  const browser = start(BROWSER, words, { env: { ...process.env, ER_TRACES: traces, TMPDIR: folder }, stdio: ['ignore', 'pipe', 'pipe'] });
  const isThere = () => fs.existsSync(traces) && tracesIn(traces).length > 0;
  for (let k = 0; k < 900 && !isThere(); k++) await sleep(100);
  browser.kill('SIGTERM');
  await browser.ended;
  assert.ok(await waitForWriters(traces, LONGEST_WRITING));
  assert.deepStrictEqual(tracesIn(traces).map(pageOf), ['shop-index'], browser.said);
});

test('nothing is recorded where it is not asked for, and nothing in an empty folder', LIMIT, async () => {
  const env = { ...process.env };
  delete env.ER_TRACES;
  const { status, stdout } = await run(BROWSER, ['--version'], { env, longest: LONGEST_RUN });
  assert.strictEqual(status, 0);
  assert.match(stdout, /^Chromium \d/);
  const empty = path.join(folder, 'empty');
  fs.mkdirSync(empty);
  assert.strictEqual((await suite(empty)).status, 4);
  assert.strictEqual((await suite(path.join(folder, 'none'))).status, 2);
  assert.strictEqual((await suite(empty, path.join(folder, 'none'))).status, 2);
  assert.strictEqual((await suite(empty, '--slow', '3')).status, 2);
});

test('where the recorder stands in the first page of an opened window, and what lets it run there', () => {
  const opened = new OpenedWindow('http://a/', 'x = "</script>"');
  const into = (/** @type {string} */ html) => {
    const [{ start: at, insert }] = opened.insertions('http://a/', html);
    assert.ok(!insert.slice(0, -'</script>'.length).includes('</script'), insert);
    return html.slice(0, at);
  };
  assert.strictEqual(into('<!doctype html>\n<!-- a --><html lang="en"><head class="b"><title>'), '<!doctype html>\n<!-- a --><html lang="en"><head class="b">');
  assert.strictEqual(into('<!DOCTYPE html>\n<p>text'), '<!DOCTYPE html>\n');
  assert.strictEqual(into('text'), '');
  assert.deepStrictEqual(opened.insertions('http://b/', 'text'), []);
  const policy = (/** @type {string} */ text) => policyWithMarks(text, [], holdAt('http://a/', true));
  assert.match(policy("script-src 'self'"), /script-src 'self' 'nonce-__er-hold'/);
  assert.strictEqual(policy("script-src 'unsafe-inline'; img-src a"), "script-src 'unsafe-inline'; img-src a");
  assert.strictEqual(slugOf('http://127.0.0.1:80/a b/c.html?d#e'), '127.0.0.1-80-a-b-c');
});
