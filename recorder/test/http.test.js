'use strict';
// A page from a web server: a redirect, encodings, compression, a content policy, a file that is missing, a page that sends nothing.

const assert = require('node:assert');
const { createHash } = require('node:crypto');
const fs = require('node:fs');
const http = require('node:http');
const path = require('node:path');
const zlib = require('node:zlib');
const { after, before, test } = require('node:test');
const { Chromium } = require('../browser/chromium.js');
const { policyWithMarks } = require('../browser/content-policy.js');
const { Folder, ORIGIN } = require('../browser/folder.js');
const { LocalServer } = require('../browser/local-server.js');
const { markAhead } = require('../instrument/ahead.js');
const { Sources } = require('../texts/sources.js');
const { BEGINS, wordOf } = require('../trace/intake.js');
const { temporaryFolder } = require('./cleanup.js');
const { listen } = require('./server.js');
const { recordPage, judge, firstMissing } = require('./support.js');

const PAGE = Buffer.from('<!doctype html><title>h</title><p id="caf\u00e9">caf\u00e9</p><script src="code.js" integrity="sha256-x"></script><script src="lost.js"></script><script>seen = word</script>', 'latin1');
/** 4,500 elements, 1,500 timeouts and 1,000 clicks by a script, of four actions each; a request is open until all is done. */
const MANY = `<!doctype html><title>m</title>${'<p class="one">x</p>'.repeat(4490)}<button id="go">go</button><script>
var clicks = 0;
document.getElementById('go').addEventListener('click', function onGo() { clicks++; });
(function () {
  let left = 1500;
  const isDone = () => { left--; if (left === 0) fetch('done'); };
  fetch('open');
  for (let k = 0; k < 1500; k++) setTimeout(isDone, k % 50);
})();
for (let k = 0; k < 1000; k++) document.getElementById('go').click();
</script>`;
const CODE = 'var named = 1;\n';
/** @param {string} text */
const hashOf = (text) => `'sha256-${createHash('sha256').update(text).digest('base64')}'`;
/** A header and an element, each with a policy: what runs is allowed by both. */
const POLICY = `script-src 'unsafe-hashes' ${hashOf('first = 1')} ${hashOf('forbidden = 1')} ${hashOf('clicked = 1')} 'nonce-abc'; require-trusted-types-for 'script'`;
const OF_POLICY = `<!doctype html><meta http-equiv="Content-Security-Policy" content="script-src 'unsafe-hashes' ${hashOf('first = 1')} ${hashOf('clicked = 1')} 'nonce-abc'">
<script>first = 1</script><script>forbidden = 1</script><script>neither = 1</script><button onclick="clicked = 1" onmousedown="pressed = 1">go</button>
<script nonce="abc">setTimeout('byText = 1', 0); document.querySelector('button').onmouseup = function lets() { up = 1; };</script>`;
/** @type {{[address: string]: [status: number, headers: import('node:http').OutgoingHttpHeaders, body: string|Buffer]}} */
const ANSWERS = {
  '/named': [302, { location: '/folder/named' }, ''],
  '/folder/named': [200, { 'content-type': 'text/html' }, `<!doctype html><script src="code.js"></script><script src="/lost.js"></script><script src="http://127.0.0.2:1/never.js"></script><script src="/code.js"></script>`],
  '/folder/code.js': [200, { 'content-type': 'text/javascript' }, CODE],
  '/many': [200, { 'content-type': 'text/html' }, MANY],
  '/source': [200, { 'content-type': 'text/html' }, '<!doctype html><script>var last; var source = new EventSource("stream"); source.onmessage = function onMessage(event) { last = event.data; };</script>'],
  '/integrity': [200, { 'content-type': 'text/html', 'integrity-policy': 'blocked-destinations=(script)', 'integrity-policy-report-only': 'blocked-destinations=(script)' },
    `<!doctype html><script src="/folder/code.js" integrity=${hashOf(CODE).slice(1, -1)}></script><script>seen = named</script>`],
  '/start': [302, { location: '/page' }, ''],
  '/page': [200, { 'content-type': 'text/html; charset=iso-8859-1', 'content-security-policy': `script-src 'self' ${hashOf('seen = word')}` }, PAGE],
  '/policy': [200, { 'content-type': 'text/html', 'content-security-policy': POLICY }, OF_POLICY],
  '/code.js': [200, { 'content-type': 'text/javascript; charset=utf-8', 'content-encoding': 'gzip' }, zlib.gzipSync("var word = document.getElementById('caf\u00e9').textContent;\nif (word !== 'caf\u00e9') throw new Error(word);\n")],
};

/** @type {(string|undefined)[]} */
const asked = [];
/** @type {http.ServerResponse|undefined} */
let opened;
/** @type {Chromium} */
let browser;
/** @type {http.Server} */
let server;
/** @type {string} */
let origin;
before(async () => {
  browser = await Chromium.launch({ width: 1100, height: 800 });
  server = http.createServer((request, response) => {
    asked.push(request.url);
    if (request.url === '/never') return;
    if (request.url === '/open') opened = response;
    if (request.url === '/done') opened?.end();
    if (request.url === '/open') return;
    if (request.url === '/half') {
      response.writeHead(200, { 'content-type': 'text/html' }).write('<!doctype html><p id="first">1</p><script>came = 1</script><p>');
      return;
    }
    if (request.url === '/stalls') {
      response.writeHead(200, { 'content-type': 'text/html' }).end('<!doctype html><p id="first">1</p><script src="never"></script>');
      return;
    }
    if (request.url === '/stream') {
      response.writeHead(200, { 'content-type': 'text/event-stream' }).write('data: one\n\ndata: two\n\n');
      return;
    }
    const [status, headers, body] = ANSWERS[request.url || ''] || [404, {}, 'no'];
    response.writeHead(status, headers).end(body);
  });
  origin = `http://127.0.0.1:${await listen(server)}`;
});
after(async () => {
  await browser.close();
  server.closeAllConnections();
  server.close();
});

test('a page that is redirected, compressed, in another encoding, under a policy', { timeout: 150000 }, async () => {
  const trace = await recordPage(browser, `${origin}/start`);
  const due = ['parse p#caf\u00e9 plain', 'parse script sync', 'exec script', 'w word', 'inline script load', 'parse script sync', 'parse script inline', 'exec script', 'r word', 'dcl', 'load'];
  assert.strictEqual(firstMissing(trace.readable, due), null, trace.readable.join('\n'));
  assert.ok(trace.lines.includes('w elem 0 caf%C3%A9'));
  assert.deepStrictEqual(trace.errors, []);
  assert.ok(!trace.losses.some((line) => /content policies/.test(line)), trace.losses.join('\n'));
  assert.ok(trace.losses.some((line) => /integrity attributes dropped .*: 1/.test(line)));
  assert.strictEqual(judge(trace).refused, '');
});

test('what a content policy forbids does not run, and what it allows by a hash runs with its marks', { timeout: 150000 }, async () => {
  const trace = await recordPage(browser, `${origin}/policy`, ['--do', 'click:button']);
  const due = ['exec script', 'w first', 'exec script', 'fire button mousedown', 'run lets', 'w up', 'run click', 'w clicked'];
  assert.strictEqual(firstMissing(trace.readable, due), null, trace.readable.join('\n'));
  for (const name of ['forbidden', 'neither', 'pressed', 'byText']) assert.ok(!trace.readable.includes(`w ${name}`), name);
  assert.ok(trace.losses.some((line) => /trusted types of content policies dropped .*: 1/.test(line)), trace.losses.join('\n'));
});

test('instrumented scripts load where a header demands integrity', { timeout: 150000 }, async () => {
  const trace = await recordPage(browser, `${origin}/integrity`);
  assert.strictEqual(firstMissing(trace.readable, ['exec script', 'w named', 'exec script', 'r named', 'w seen']), null, trace.readable.join('\n'));
  assert.ok(trace.losses.some((line) => /^integrity policies dropped .*: 1/.test(line)), trace.losses.join('\n'));
  assert.deepStrictEqual(trace.errors, []);
});

test('a policy lets come what a replay puts into a page', () => {
  const hold = { address: 'http://h/hold', nonce: 'n' };
  const policy = "default-src 'none'; script-src 'nonce-x'; img-src 'self'; style-src 'self'";
  assert.strictEqual(policyWithMarks(policy, [], null), policy);
  assert.strictEqual(policyWithMarks(policy, [], hold), " default-src http://h/hold; script-src 'nonce-x' 'nonce-n' http://h/hold; img-src 'self' http://h/hold; style-src 'self'");
});

test('a page that never answers', { timeout: 150000 }, async () => {
  await assert.rejects(recordPage(browser, `${origin}/never`, ['--time', '2']), /did not load: no answer came in time/);
});

test('a page that does not come to its end', { timeout: 150000 }, async () => {
  await assert.rejects(recordPage(browser, `${origin}/half`, ['--time', '2']), /did not load: it did not come to its end in time/);
});

test('a page that waits for a script which never comes', { timeout: 150000 }, async () => {
  const trace = await recordPage(browser, `${origin}/stalls`, ['--time', '3']);
  assert.strictEqual(firstMissing(trace.readable, ['parse p#first plain', 'parse script sync']), null, trace.readable.join('\n'));
  assert.ok(!trace.readable.includes('load'));
  assert.ok(trace.losses.some((line) => /ended before the page was quiet/.test(line)), trace.losses.join('\n'));
});

test('the events of an event source are replies', { timeout: 150000 }, async () => {
  const trace = await recordPage(browser, `${origin}/source`, ['--time', '6']);
  const due = ['send', 'on onMessage', 'reply', 'run onMessage', 'w last', 'close', 'reply', 'run onMessage', 'w last'];
  assert.strictEqual(firstMissing(trace.readable, due), null, trace.readable.join('\n'));
  assert.deepStrictEqual(judge(trace).races, []);
});

test('ten thousand actions in under a minute', { timeout: 150000 }, async () => {
  const begin = Date.now();
  const trace = await recordPage(browser, `${origin}/many`, ['--time', '50']);
  const seconds = (Date.now() - begin) / 1000;
  const actions = trace.lines.filter((line) => BEGINS.has(wordOf(line))).length;
  assert.ok(actions >= 10000 && seconds < 60, `${actions} actions in ${seconds} s`);
  assert.strictEqual(trace.lines.filter((line) => line.startsWith('timer ')).length, 1500);
  // 1,500 timeouts of 50 delays write one variable: more races than the program takes, so er_page leaves it out (races/within-limits.js)
  assert.match(judge(trace).refused, /^$|too-many-races$/);
});

test('the scripts that a page of a folder names are marked before it loads', () => {
  const root = temporaryFolder('ahead');
  fs.writeFileSync(path.join(root, 'named.html'), '<!doctype html><script src="code.js"></script><script src="/lost.js"></script><script src="http://127.0.0.2:1/never.js"></script>');
  fs.writeFileSync(path.join(root, 'code.js'), CODE);
  const place = new Folder(root);
  const sources = new Sources();
  assert.strictEqual(markAhead(sources, place, `${ORIGIN}/named.html#here`), 1);
  assert.deepStrictEqual(sources.files.map(({ address }) => address), [`${ORIGIN}/code.js`]);
  const [file] = sources.files;
  const marked = 'edited' in file ? file.edited?.text : null;
  assert.strictEqual(sources.rewriteScript(`${ORIGIN}/code.js`, CODE), marked);
  assert.strictEqual(sources.files.length, 1);
  assert.strictEqual(markAhead(new Sources(), place, `${ORIGIN}/none.html`), 0);
  const deep = new Sources();
  deep.rewriteScript = () => { throw new RangeError('too deep'); };
  assert.strictEqual(markAhead(deep, place, `${ORIGIN}/named.html`), 0);
});

test('a server gets each request once', { timeout: 150000 }, async () => {
  asked.length = 0;
  await recordPage(browser, `${origin}/named`);
  assert.deepStrictEqual(asked.filter((one) => one !== '/favicon.ico').sort(), ['/code.js', '/folder/code.js', '/folder/named', '/lost.js', '/named']);
});

test('which servers are on this machine', () => {
  const machine = new LocalServer();
  for (const address of ['http://localhost:8080/', 'http://shop.localhost/', 'http://127.0.0.1/']) assert.ok(machine.has(address), address);
  for (const address of ['http://example.org/', 'https://localhost/', 'http://localhost.example.org/', 'http://203.0.113.1/', 'http://', 'data:text/html,x']) {
    assert.ok(!machine.has(address), address);
  }
});
