'use strict';
// er_page replays the first races of a page by itself, if no server gets a request again.

const assert = require('node:assert');
const fs = require('node:fs');
const http = require('node:http');
const path = require('node:path');
const { after, before, test } = require('node:test');
const { PROGRAM } = require('../races/program.js');
const { run, temporaryFolder } = require('./cleanup.js');
const { listen } = require('./server.js');

const TOP = path.join(__dirname, '..', '..');
const LIMIT = { timeout: 200000 };
const folder = temporaryFolder('replay-by-itself');
/** Seven races of two timeouts each, and a request of which something comes in each run. */
const TIMEOUTS = Array.from({ length: 7 }, (_, k) => `var v${k} = 0; setTimeout(function late${k}() { v${k} = 2; }, ${60 + k}); setTimeout(function soon${k}() { v${k} = 1; }, ${20 + k});`);
/** @type {{[path: string]: string}} */
const PAGES = {
  '/reads': `<!doctype html><title>r</title><script>fetch('/data').then((answer) => answer.text()).then((text) => { document.title = text; });\n${TIMEOUTS.join('\n')}</script>`,
  '/posts': `<!doctype html><title>p</title><script>fetch('/data', { method: 'POST' });\n${TIMEOUTS[0]}</script>`,
  '/data': 'data',
};
/** @type {string[]} */
const asked = [];
const server = http.createServer((request, response) => {
  asked.push(`${request.method} ${request.url}`);
  response.writeHead(200, { 'content-type': request.url === '/data' ? 'text/plain' : 'text/html' }).end(PAGES[request.url || ''] || '');
});
let origin = '';
before(async () => { origin = `http://127.0.0.1:${await listen(server)}`; });
after(() => {
  server.closeAllConnections();
  server.close();
});

/** @param {string[]} words */
const page = (...words) => run(path.join(TOP, 'er_page'), words, { cwd: folder, longest: 180000, env: { ...process.env, ER_CLI: PROGRAM } });
/** @param {string} name */
const replaysOf = (name) => path.join(folder, `${name}.races`, 'page.replay.json');

test('the first five races are replayed, and the server gets each request once', LIMIT, async () => {
  const { status, stdout, stderr } = await page(`${origin}/reads`);
  assert.strictEqual(status, 1, stderr);
  assert.match(stderr, /^Each of 5 run again in the other order, .* \(--no-replay leaves this out\):$/m);
  assert.strictEqual(JSON.parse(fs.readFileSync(replaysOf('reads'), 'utf8')).races.length, 5);
  assert.strictEqual(stdout.match(/^ {4}replayed: (?!no \()/gm)?.length, 5, stdout);
  assert.strictEqual(stdout.match(/^ {4}replayed: no \(not among the first 5; \.\/er_replay reads\.races\/page\.trace --race \d+ does it\)$/gm)?.length, 2, stdout);
  assert.deepStrictEqual(asked.filter((one) => / \/(reads|data)$/.test(one)), ['GET /reads', 'GET /data']);
});

/** Loaded into the command: the time is over when one race is replayed, and the others need another run. */
const LIMIT_AFTER_ONE = `
const { Replay } = require(${JSON.stringify(path.join(TOP, 'recorder/replay/replay.js'))});
const { LONGEST_BY_ITSELF } = require(${JSON.stringify(path.join(TOP, 'recorder/replay-by-itself.js'))});
const { setTimeout: start } = globalThis;
let end = () => {};
globalThis.setTimeout = (made, delay, ...rest) => {
  if (delay === LONGEST_BY_ITSELF && /isReached/.test(made)) end = made;
  return start(made, delay, ...rest);
};
const { reverse } = Replay.prototype;
let isOver;
const over = new Promise((resolve) => { isOver = resolve; });
let count = 0;
Replay.prototype.reverse = async function (race, number) {
  if (count++) await over;
  const result = await reverse.call(this, race, number);
  start(() => { end(); isOver(); }, 100);
  return result;
};`;

test('replays that end after the time say so, and of how many', LIMIT, async () => {
  const file = path.join(folder, 'limit.js');
  fs.writeFileSync(file, LIMIT_AFTER_ONE);
  const { status, stdout, stderr } = await run(path.join(TOP, 'er_page'), [`${origin}/reads`], { cwd: folder, longest: 180000, env: { ...process.env, ER_CLI: PROGRAM, NODE_OPTIONS: `--require ${file}` } });
  assert.strictEqual(status, 1, stderr);
  assert.match(stderr, /^er_page: replays ended after 60 s, with 1 of 5 races done; --replay does all$/m);
  assert.match(stdout, /^Replayed 1 of 5 races: \d differs?(?:, 1 could not be turned|, 1 without a visible difference)?\.$/m);
  assert.strictEqual(stdout.match(/^ {4}replayed: no \(60 s were over; \.\/er_replay reads\.races\/page\.trace --race \d+ does it\)$/gm)?.length, 6, stdout);
});

test('races that are known are not replayed, nor is any with --no-replay', LIMIT, async () => {
  const written = await page(`${origin}/reads`, '--known', 'races.known', '--write-known');
  assert.ok(!/run again in the other order/.test(written.stderr), written.stderr);
  const known = await page(`${origin}/reads`, '--known', 'races.known');
  assert.deepStrictEqual([known.status, /run again in the other order/.test(known.stderr)], [0, false], known.stderr);
  const { status, stdout, stderr } = await page(`${origin}/reads`, '--no-replay');
  assert.deepStrictEqual([status, /replayed: |run again/.test(stdout + stderr), fs.existsSync(replaysOf('reads'))], [1, false, false], stderr);
});

test('nothing is replayed if a server would get a request again', LIMIT, async () => {
  const { status, stdout, stderr } = await page(`${origin}/posts`);
  assert.strictEqual(status, 1, stderr);
  assert.match(stderr, /^er_page: races are not replayed: each replay would send again: POST http:\/\/127\.0\.0\.1:\d+\/data; --replay does it$/m);
  assert.ok(!stdout.includes('replayed: '), stdout);
  assert.strictEqual(asked.filter((one) => one === 'POST /data').length, 1);
});
