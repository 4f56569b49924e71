'use strict';
// Where applications run: servers that end with all of their processes, sessions with forms, CGI programs. Only servers of this file are started.

const assert = require('node:assert');
const fs = require('node:fs');
const http = require('node:http');
const { test } = require('node:test');
const { setTimeout: pause } = require('node:timers/promises');
const { run } = require('../cleanup.js');
const { readAnswer, serveCgi } = require('./cgi.js');
const { Place } = require('./place.js');
const { Session, hiddenFields } = require('./session.js');

/** An ended process is looked for so many times, and so many milliseconds apart. */
const MOST_LOOKS = 100;
const BETWEEN_LOOKS = 50;
/** A shell that starts another process and writes both numbers. */
const SERVER = 'sleep 600 & echo "$$ $!" > numbers.new && mv numbers.new numbers && wait';
/** @param {number} pid */
function isAlive(pid) {
  const file = `/proc/${pid}/status`;
  return fs.existsSync(file) && /^State:\s+[^ZX]/m.test(fs.readFileSync(file, 'utf8'));
}

/**
 * Waits until processes that get a signal have ended: on a busy machine that takes a moment.
 * @param {number[]} numbers
 */
async function areGone(numbers) {
  for (let tries = 0; numbers.some(isAlive); tries++) {
    assert.ok(tries < MOST_LOOKS, `still alive: ${numbers.filter(isAlive)}`);
    await pause(BETWEEN_LOOKS);
  }
}

test('a place ends its servers with their own processes, and removes its folder', async () => {
  const place = new Place('place-test');
  place.serve('bash', ['-c', SERVER]);
  await place.ready(place.path('numbers'));
  const numbers = fs.readFileSync(place.path('numbers'), 'utf8').trim().split(' ').map(Number);
  assert.deepStrictEqual(numbers.map(isAlive), [true, true]);
  await place.end();
  assert.deepStrictEqual(numbers.map(isAlive), [false, false]);
  assert.ok(!fs.existsSync(place.folder));
});

test('a process that a signal ends takes its servers and folders with it', async () => {
  const code = `const { Place } = require(${JSON.stringify(require.resolve('./place.js'))});
    const place = new Place('place-test');
    place.serve('bash', ['-c', ${JSON.stringify(SERVER)}]);
    place.ready(place.path('numbers')).then(() => {
      console.log(JSON.stringify([place.folder, require('node:fs').readFileSync(place.path('numbers'), 'utf8').trim()]));
      process.kill(process.pid, 'SIGINT');
      setTimeout(() => {}, 60000);
    });`;
  const { status, stdout } = await run(process.execPath, ['-e', code], { longest: 60000 });
  const [folder, numbers] = JSON.parse(stdout);
  assert.strictEqual(status, 130);
  assert.ok(!fs.existsSync(folder));
  await areGone(numbers.split(' ').map(Number));
});

test('a server that ends says why', async () => {
  const place = new Place('place-test');
  place.serve('bash', ['-c', 'echo no port; exit 3']);
  await assert.rejects(place.ready('http://127.0.0.1:1/'), { message: 'bash ended: no port' });
  await place.end();
});

test('hidden fields of a form, whichever quotes they have', () => {
  const text = '<input type="hidden" name="a" value="1&amp;2"><input name=b type=hidden value=3><input type=\'hidden\' name=\'c\'><input name="d" value="4">';
  assert.deepStrictEqual(hiddenFields(text), { a: '1&2', b: '3', c: '' });
});

test('a session keeps cookies over redirects, and sends a form with its hidden fields', async () => {
  /** @type {string[]} */
  const seen = [];
  const server = http.createServer((request, response) => {
    let body = '';
    request.on('data', (piece) => { body += piece; }).on('end', () => {
      seen.push([request.method, request.url, request.headers.cookie || '', body].join(' '));
      if (request.method === 'POST') response.writeHead(302, { location: '/home', 'set-cookie': ['user=me; Path=/', 'first=deleted; Max-Age=0'] }).end();
      else response.writeHead(200, request.url === '/login' ? { 'set-cookie': 'first=1' } : {}).end('<input type=hidden name=token value=t>');
    });
  });
  await new Promise((resolve) => { server.listen(0, '127.0.0.1', () => resolve(null)); });
  const session = new Session(`http://127.0.0.1:${/** @type {import('node:net').AddressInfo} */ (server.address()).port}`);
  await session.send('/login', { password: 'p' });
  server.close();
  assert.deepStrictEqual(seen, ['GET /login  ', 'POST /login first=1 token=t&password=p', 'GET /home user=me ']);
  assert.deepStrictEqual(session.state().cookies.map(({ name, value, domain, path }) => [name, value, domain, path]), [['user', 'me', '127.0.0.1', '/']]);
});

test('a CGI program gets the request, and its header becomes that of the answer', async () => {
  const place = new Place('cgi-test');
  const program = place.write('program', '#!/bin/sh\nprintf "Status: 201 Made\\r\\nX-Own: 1\\r\\n\\r\\n$REQUEST_METHOD $PATH_INFO $QUERY_STRING $OWN "; cat\n');
  fs.chmodSync(program, 0o700);
  place.write('files/a.js', 'a()');
  const address = await serveCgi({ program, script: '/run', folder: place.path('files'), env: { OWN: 'own' } });
  const response = await fetch(`${address}/run/part?a=1`, { method: 'POST', body: 'sent' });
  assert.deepStrictEqual([response.status, response.headers.get('x-own'), await response.text()], [201, '1', 'POST /part a=1 own sent']);
  const file = await fetch(`${address}/a.js`);
  assert.deepStrictEqual([file.status, file.headers.get('content-type'), await file.text()], [200, 'text/javascript', 'a()']);
  assert.strictEqual((await fetch(`${address}/none`)).status, 404);
  assert.strictEqual(readAnswer(Buffer.from('')).status, 500);
  await place.end();
});
