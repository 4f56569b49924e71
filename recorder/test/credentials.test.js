'use strict';
// Pages that want a user's name and password, and headers that only the page's own origin gets.

const assert = require('node:assert');
const http = require('node:http');
const { after, before, test } = require('node:test');
const { Chromium } = require('../browser/chromium.js');
const { parseOptions } = require('../recording/options.js');
const { readRun } = require('../recording/files.js');
const { Recorder } = require('../recording/recorder.js');

const AUTHORIZED = `Basic ${Buffer.from('me:se:cret').toString('base64')}`;
const PAGE = '<!doctype html><p id=a>?</p><script>fetch("/api").then(function replied(r) { status_ = r.status; });</script>';

/** @type {Chromium} */
let browser;
/** @type {http.Server[]} */
const servers = [];
/** @type {string[]} */
const origins = [];
/** @type {[server: number, url: string, authorization: string|undefined, token: unknown][]} */
const asked = [];
before(async () => {
  browser = await Chromium.launch({ width: 800, height: 600 });
  for (const k of [0, 1]) {
    const server = http.createServer((request, response) => {
      const url = String(request.url);
      asked.push([k, url, request.headers.authorization, request.headers['x-token']]);
      const isClosed = url === '/api' || (url === '/closed' && request.headers.authorization !== AUTHORIZED);
      const body = url === '/both' ? `<!doctype html><script src="/own.js"></script><script src="${origins[1]}/other.js"></script>` : PAGE;
      if (isClosed) response.writeHead(401, { 'www-authenticate': 'Basic realm="x"' }).end('no');
      else response.writeHead(200, { 'content-type': /js$/.test(url) ? 'text/javascript' : 'text/html', 'access-control-allow-origin': '*' }).end(/js$/.test(url) ? 'x = 1' : body);
    });
    await new Promise((resolve) => { server.listen(0, '127.0.0.1', () => resolve(undefined)); });
    servers.push(server);
    origins.push(`http://127.0.0.1:${/** @type {import('node:net').AddressInfo} */ (server.address()).port}`);
  }
});
after(async () => {
  await browser.close();
  servers.forEach((server) => { server.closeAllConnections(); server.close(); });
});

/**
 * @param {string} address
 * @param {{credentials?: {user: string, password: string}, headers?: [name: string, value: string][]}} options
 */
async function record(address, options = {}) {
  asked.length = 0;
  const recorder = new Recorder(address, { ...parseOptions(['--time', '20', address]), browser, ...options });
  const begin = Date.now();
  await recorder.record();
  const { text, names } = readRun(recorder, recorder.options);
  return { recorder, time: Date.now() - begin, all: text + names.toJson({ page: recorder.given }) + recorder.responses?.asked.join() };
}

test('a request that is refused does not stay open', { timeout: 100000 }, async () => {
  const { recorder, time } = await record(`${origins[0]}/open`);
  assert.ok(recorder.isUsed && time < 15000, `${time} ms`);
  assert.ok(recorder.intake.entries.some(({ text }) => text.startsWith('reply ')));
});

test('the name and the password of an address go to its server, and stand nowhere', { timeout: 100000 }, async () => {
  const { recorder, all } = await record(`${origins[0].replace('//', '//me:se%3Acret@')}/closed`);
  assert.ok(recorder.intake.actions > 2);
  assert.ok(asked.some(([, url, authorization]) => url === '/closed' && authorization === AUTHORIZED));
  assert.ok(!/se:cret|se%3Acret/.test(all));
  const wrong = await record(`${origins[0]}/closed`, { credentials: { user: 'me', password: 'wrong' } }).catch((fault) => fault);
  assert.ok(wrong instanceof Error || wrong.time < 15000);
});

test("headers go to the page's own origin", { timeout: 100000 }, async () => {
  await record(`${origins[0]}/both`, { headers: [['X-Token', 'abc']] });
  const seen = asked.filter(([, url]) => /both|js$/.test(url)).map(([k, url, , token]) => `${k} ${url} ${token}`).sort();
  assert.deepStrictEqual(seen, ['0 /both abc', '0 /own.js abc', '1 /other.js undefined']);
});
