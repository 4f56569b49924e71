'use strict';
// A Chromium that another program drives: what its first tab loads is recorded, and how such a recording ends.

const assert = require('node:assert');
const { createHash } = require('node:crypto');
const fs = require('node:fs');
const http = require('node:http');
const path = require('node:path');
const { after, before, test } = require('node:test');
const { sleep } = require('../common/time.js');
const { PROGRAM } = require('../races/program.js');
const { run, start, temporaryFolder } = require('./cleanup.js');
const { freePort, load, startDriven, waitFor } = require('./driven-browser.js');
const { listen, serveFolder } = require('./server.js');

const TOP = path.join(__dirname, '..', '..');
const LIMIT = { timeout: 120000 };
const LONGEST_RUN = 90000;
/** @typedef {import('../browser/tab.js').Tab} Tab */
const folder = temporaryFolder('attach-test');
/** @type {Awaited<ReturnType<typeof serveFolder>>} */
let server;
/** @type {string} */
let address;
before(async () => {
  server = await serveFolder(path.join(TOP, 'examples', 'shop'));
  address = server.addressOf('http://localhost/index.html');
});
after(() => server.close());

/**
 * @param {number} port
 * @param {string} name
 * @param {string[]} words
 */
async function attach(port, name, words = []) {
  const file = path.join(folder, `${name}.trace`);
  const recorder = start(path.join(TOP, 'er_record'), ['--attach', `127.0.0.1:${port}`, file, ...words]);
  await waitFor(() => /attached|another recorder/.test(recorder.said), `the recorder: ${recorder.said}`);
  return { file, recorder };
}

/**
 * @param {Tab} tab
 * @param {string} selector
 */
async function click(tab, selector) {
  const spot = await tab.evaluate(`(() => { const box = document.querySelector('${selector}').getBoundingClientRect(); return { x: box.left + 5, y: box.top + 5 }; })()`);
  for (const type of ['mousePressed', 'mouseReleased']) await tab.send('Input.dispatchMouseEvent', { type, ...spot, button: 'left', clickCount: 1 });
}

/** @param {string} file */
const lines = (file) => fs.readFileSync(file, 'utf8').trimEnd().split('\n');

test('what a driver loads and clicks, until it ends the browser', LIMIT, async () => {
  const { port, tab, end } = await startDriven(folder, 'clicks');
  const { file, recorder } = await attach(port, 'clicks');
  await load(tab, address);
  await click(tab, '#add');
  await tab.evaluate('window.ofTheDriver = 1');
  await sleep(1000);
  await end();
  assert.strictEqual(await recorder.ended, 0, recorder.said);
  const all = lines(file);
  assert.strictEqual(all[all.length - 1], 'end');
  assert.ok(all.some((line) => /^(?:fire|inline) \d+ \d+ click$/.test(line)), recorder.said);
  assert.ok(all.includes('w var 0 cart'));
  assert.ok(!all.includes('w var 0 ofTheDriver'));
  const view = await run(path.join(TOP, 'er_view'), [file], { longest: LONGEST_RUN });
  assert.strictEqual(view.status, 1, view.stderr);
});

test('another page in its place, a second recorder, a driver that loads nothing, a tab that goes away', LIMIT, async () => {
  const { port, tab, driver, end } = await startDriven(folder, 'ends');
  const left = await attach(port, 'left');
  const second = await attach(port, 'second');
  assert.strictEqual(await second.recorder.ended, 5, second.recorder.said);
  assert.match(second.recorder.said, /another recorder records the first tab/);
  await load(tab, address);
  await load(tab, `${address}?again`);
  assert.strictEqual(await left.recorder.ended, 0, left.recorder.said);
  assert.match(left.recorder.said, /the page that came in the place of this one/);
  assert.strictEqual(lines(left.file).pop(), 'end');
  assert.strictEqual(await tab.evaluate('typeof __er'), 'undefined');
  const idle = await attach(port, 'idle', ['--time', '1']);
  assert.strictEqual(await idle.recorder.ended, 4, idle.recorder.said);
  assert.match(idle.recorder.said, /the driver loaded no page in time/);
  const closed = await attach(port, 'closed');
  await load(tab, address);
  await driver.send('Target.createTarget', { url: 'about:blank' });
  await driver.send('Target.closeTarget', { targetId: tab.targetId });
  assert.strictEqual(await closed.recorder.ended, 0, closed.recorder.said);
  assert.strictEqual(lines(closed.file).pop(), 'end');
  assert.ok(lines(closed.file).length > 20);
  await end();
});

/** A server that takes sockets, and answers requests with nothing. */
async function serveSockets() {
  const sockets = http.createServer((request, response) => response.end());
  sockets.on('upgrade', ({ headers }, socket) => {
    const accept = createHash('sha1').update(`${headers['sec-websocket-key']}258EAFA5-E914-47DA-95CA-C5AB0DC85B11`).digest('base64');
    socket.on('error', () => {});
    socket.write(['HTTP/1.1 101 Switching Protocols', 'Upgrade: websocket', 'Connection: Upgrade', `Sec-WebSocket-Accept: ${accept}`, '', ''].join('\r\n'));
  });
  return { port: await listen(sockets), close: () => { sockets.closeAllConnections(); sockets.close(); } };
}

test('a page of this machine can send requests and open sockets to another port of it', LIMIT, async (t) => {
  const other = await serveSockets();
  t.after(() => other.close());
  const site = path.join(folder, 'ports');
  fs.mkdirSync(site);
  const script = `const told = [];
    const tell = (text) => { told.push(text); if (told.length === 2) document.title = told.sort().join(); };
    fetch('http://localhost:${other.port}/', { mode: 'no-cors' }).then(() => tell('came'), () => tell('failed'));
    const socket = new WebSocket('ws://localhost:${other.port}/');
    socket.onopen = () => tell('opened');
    socket.onerror = () => tell('not opened');`;
  fs.writeFileSync(path.join(site, 'index.html'), `<!doctype html><title>p</title><script>${script}</script>`);
  const own = await serveFolder(site);
  t.after(() => own.close());
  const driven = await startDriven(folder, 'ports-browser');
  t.after(() => driven.end());
  const { recorder } = await attach(driven.port, 'ports');
  await load(driven.tab, own.addressOf('http://localhost/index.html'));
  await waitFor(async () => /came|failed/.test(await driven.tab.evaluate('document.title')), 'the answer');
  assert.strictEqual(await driven.tab.evaluate('document.title'), 'came,opened', recorder.said);
  await driven.end();
  assert.strictEqual(await recorder.ended, 0, recorder.said);
});

test('no browser at the port, and what is no browser', LIMIT, async () => {
  const words = (/** @type {number|string} */ port) => ['--attach', `127.0.0.1:${port}`, path.join(folder, 'none.trace')];
  const none = await run(path.join(TOP, 'er_record'), words(await freePort()), { longest: LONGEST_RUN });
  assert.strictEqual(none.status, 5);
  assert.match(none.stderr, /no browser listens at this port/);
  const other = await run(path.join(TOP, 'er_record'), words(new URL(address).port), { longest: LONGEST_RUN });
  assert.strictEqual(other.status, 5);
  assert.match(other.stderr, /the program at this port is not a browser/);
  const far = await run(path.join(TOP, 'er_record'), ['--attach', 'example.com:9222', 'x.trace'], { longest: LONGEST_RUN });
  assert.strictEqual(far.status, 2);
});

const hasSelenium = fs.existsSync('/usr/lib/python3/dist-packages/selenium') && fs.existsSync('/usr/bin/chromedriver');

test('a test with Selenium, and its races', { ...LIMIT, skip: hasSelenium ? false : 'python3-selenium and chromium-driver are not installed' }, async () => {
  const port = await freePort();
  const file = path.join(folder, 'selenium.trace');
  const env = { ...process.env, ER_RECORD: `${path.join(TOP, 'er_record')} --attach 127.0.0.1:${port} ${file}` };
  const { status, stdout, stderr } = await run('/usr/bin/python3', [path.join(__dirname, 'drivers', 'selenium_clicks.py'), String(port), address], { env, longest: LONGEST_RUN });
  assert.strictEqual(status, 0, stderr);
  assert.match(stdout, /^count: \d/);
  const { status: judged, stdout: report } = await run('/bin/sh', ['-c', `${PROGRAM} < ${file}`], { longest: LONGEST_RUN });
  assert.strictEqual(judged, 1, stderr);
  assert.match(report, /^race .* var 0 cart$/m);
  assert.ok(!/se_exportedFunctionSymbol/.test(report), 'the driver\'s own variables are not the page\'s');
});
