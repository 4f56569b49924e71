'use strict';
// Pages that need a log-in: cookies, a stored state, a profile that stays, and what a page knows of the browser.

const assert = require('node:assert');
const { spawnSync } = require('node:child_process');
const fs = require('node:fs');
const http = require('node:http');
const path = require('node:path');
const { after, before, test } = require('node:test');
const { run, temporaryFolder } = require('./cleanup.js');

const TOP = path.join(__dirname, '..', '..');
const LIMIT = { timeout: 150000 };
const folder = temporaryFolder('signed-in');
const hasXvfb = spawnSync('xvfb-run', ['--help']).status === 0;
/** Throws what the page knows: uncaught errors are printed. */
const THROWS = 'throw new Error([localStorage.getItem("user"), innerWidth, innerHeight, navigator.userAgent].join("|"))';
/** @type {string} */
let origin;

const server = http.createServer(({ url, headers: { cookie = '' } }, response) => {
  if (url === '/login') response.writeHead(200, { 'content-type': 'text/html', 'set-cookie': 'session=open-sesame; Max-Age=3600' }).end('<!doctype html><p>log in');
  else if (!cookie.includes('session=open-sesame')) response.writeHead(302, { location: '/login' }).end();
  else response.writeHead(200, { 'content-type': 'text/html' }).end(`<!doctype html><title>in</title><script>${THROWS}</script>`);
});
before(async () => {
  await new Promise((resolve) => { server.listen(0, '127.0.0.1', () => resolve(null)); });
  origin = `http://127.0.0.1:${/** @type {import('node:net').AddressInfo} */ (server.address()).port}`;
});
after(() => {
  server.closeAllConnections();
  server.close();
});

/** @param {string[]} args */
const record = (...args) => run(path.join(TOP, 'er_record'), [`${origin}/page`, path.join(folder, 'a.trace'), ...args], { cwd: folder, longest: 90000 });
const filesOfRecording = () => ['a.trace', 'a.names.json'].map((file) => fs.readFileSync(path.join(folder, file), 'utf8')).join('');

test('a cookie, the size of the view and the name of the browser', LIMIT, async () => {
  const without = await record();
  assert.ok(!/error:/.test(without.stderr), without.stderr);
  const { status, stderr } = await record('--cookie', 'session=open-sesame', '--viewport', '640x480', '--user-agent', 'Tester/1');
  assert.strictEqual(status, 0, stderr);
  assert.match(stderr, /error: Error: \|640\|480\|Tester\/1 /);
  assert.ok(!filesOfRecording().includes('open-sesame'));
  assert.match(filesOfRecording(), /"--viewport",\s*"640x480"/);
});

test("a state that Playwright's storageState wrote", LIMIT, async () => {
  const file = path.join(folder, 'state.json');
  const cookie = { name: 'session', value: 'open-sesame', domain: '127.0.0.1', path: '/', expires: -1, httpOnly: true, secure: false, sameSite: 'Lax' };
  const origins = [{ origin, localStorage: [{ name: 'user', value: 'ann' }] }, { origin: 'http://other.example', localStorage: [{ name: 'user', value: 'eve' }] }];
  fs.writeFileSync(file, JSON.stringify({ cookies: [cookie], origins }));
  const { status, stderr } = await record('--storage-state', file);
  assert.strictEqual(status, 0, stderr);
  assert.match(stderr, /error: Error: ann\|/);
  assert.ok(!filesOfRecording().includes('open-sesame'));
  fs.writeFileSync(file, '{"cookies": 1}');
  const wrong = await record('--storage-state', file);
  assert.deepStrictEqual([wrong.status, /Playwright's storageState/.test(wrong.stderr)], [2, true], wrong.stderr);
});

test('a profile stays', LIMIT, async () => {
  const profile = path.join(folder, 'profile');
  const first = await record('--user-data-dir', profile);
  assert.ok(!/error:/.test(first.stderr), first.stderr);
  const { status, stderr } = await record('--user-data-dir', profile);
  assert.strictEqual(status, 0, stderr);
  assert.match(stderr, /error: Error: \|/);
});

test('the window is shown', { ...LIMIT, skip: hasXvfb ? false : 'xvfb is not installed' }, async () => {
  const site = path.join(folder, 'headed.html');
  fs.writeFileSync(site, '<!doctype html><script>throw new Error(navigator.userAgent)</script>');
  const { status, stderr } = await run('xvfb-run', ['-a', path.join(TOP, 'er_page'), site, '--headed'], { cwd: folder, longest: 120000 });
  assert.strictEqual(status, 0, stderr);
  assert.match(stderr, /error: Error: Mozilla.* Chrome\//);
  assert.ok(!/HeadlessChrome/.test(stderr), stderr);
});
