'use strict';
// Which servers the recorder itself asks for source maps.

const assert = require('node:assert');
const fs = require('node:fs');
const http = require('node:http');
const os = require('node:os');
const path = require('node:path');
const { after, before, test } = require('node:test');
const { Folder } = require('./folder.js');
const { readMapOf } = require('./local-server.js');

/** @type {string[]} */
const asked = [];
/** @type {http.Server[]} */
const servers = [];
/** @type {string[]} */
const origins = [];
const root = fs.mkdtempSync(path.join(os.tmpdir(), 'er-maps-'));
fs.writeFileSync(path.join(root, 'a.map'), 'of the folder');

before(async () => {
  for (const k of [0, 1]) {
    const server = http.createServer((request, response) => {
      asked.push(`${k} ${request.url}`);
      const locations = new Map([['/away.map', `${origins[1]}/a.map`], ['/moved.map', '/a.map'], ['/circle.map', '/circle.map']]);
      const location = locations.get(String(request.url));
      response.writeHead(location ? 302 : request.url === '/a.map' ? 200 : 404, location ? { location } : {}).end(`of ${k}`);
    });
    await new Promise((resolve) => { server.listen(0, '127.0.0.1', () => resolve(undefined)); });
    servers.push(server);
    origins.push(`http://127.0.0.1:${/** @type {import('node:net').AddressInfo} */ (server.address()).port}`);
  }
});
after(() => {
  servers.forEach((server) => server.close());
  fs.rmSync(root, { recursive: true, force: true });
});

test('a map comes from the origin of its script', async () => {
  const script = `${origins[0]}/a.js`;
  assert.strictEqual(await readMapOf(`${origins[0]}/a.map`, script, null), 'of 0');
  assert.strictEqual(await readMapOf(`${origins[0]}/moved.map`, script, null), 'of 0');
  assert.strictEqual(await readMapOf(`${origins[0]}/none.map`, script, null), null);
  assert.strictEqual(await readMapOf(`${origins[0]}/circle.map`, script, null), null);
});

test('no other server is asked, also not by a redirect', async () => {
  asked.length = 0;
  assert.strictEqual(await readMapOf(`${origins[1]}/a.map`, `${origins[0]}/a.js`, null), null);
  assert.strictEqual(await readMapOf(`${origins[1]}/a.map`, 'https://evil.example/a.js', null), null);
  assert.strictEqual(await readMapOf(`${origins[1]}/a.map`, 'http://localhost/a.js', new Folder(root)), null);
  assert.strictEqual(await readMapOf('file:///etc/passwd', 'file:///tmp/a.js', null), null);
  assert.deepStrictEqual(asked, []);
  assert.strictEqual(await readMapOf(`${origins[0]}/away.map`, `${origins[0]}/a.js`, null), null);
  assert.deepStrictEqual(asked, ['0 /away.map']);
});

test('the folder gives maps to its own scripts alone', async () => {
  const folder = new Folder(root);
  assert.strictEqual(await readMapOf('http://localhost/a.map', 'http://localhost/a.js', folder), 'of the folder');
  assert.strictEqual(await readMapOf('http://localhost/a.map', 'https://evil.example/a.js', folder), null);
});
