'use strict';
// The fifteen failures that testers saw when they recorded web applications, each with the smallest page that shows it. The commands alone are called, so
// that another release can be tested too: ER_CHECKOUT names its checkout, ER_CLI its analyzer.

const assert = require('node:assert');
const fs = require('node:fs');
const http = require('node:http');
const path = require('node:path');
const { after, before, test } = require('node:test');
const { run, start, temporaryFolder } = require('../cleanup.js');
const { load, startDriven, waitFor } = require('../driven-browser.js');
const { listen } = require('../server.js');
const { bundle, manyRaces } = require('./failure-pages.js');

const CHECKOUT = process.env.ER_CHECKOUT || path.join(__dirname, '..', '..', '..');
const LIMIT = { timeout: 400000 };
const LONGEST_RUN = 190000;
const MOST_BYTES_OF_A_PAGE = 5_000_000;
const folder = temporaryFolder('failures');

/** @typedef {(request: http.IncomingMessage, response: http.ServerResponse) => void} Answer */
/** @type {Map<string, Answer>} what is served, by path: anything else is not found */
const answers = new Map();
/** @type {string[]} the requests, as `GET /path?query` */
let requests = [];
/** @type {string} */
let origin;
const server = http.createServer((request, response) => {
  requests.push(`${request.method} ${request.url}`);
  const answer = answers.get((request.url || '').split('?')[0]);
  if (answer) answer(request, response);
  else response.writeHead(404).end();
});
before(async () => { origin = `http://127.0.0.1:${await listen(server)}`; });
after(() => {
  server.closeAllConnections();
  server.close();
});

/**
 * @param {string} address
 * @param {string} text
 * @param {string} type
 */
const serve = (address, text, type = 'text/html') => answers.set(address, (_, response) => response.writeHead(200, { 'content-type': type }).end(text));
/** @param {string} address @param {string} script */
const scriptAt = (address, script) => serve(address, script, 'text/javascript');

/** The options that switch replays off, in a release that replays without being asked. */
async function withoutReplay() {
  const { stdout } = await run(path.join(CHECKOUT, 'er_page'), ['--help'], { longest: LONGEST_RUN });
  return stdout.includes('--no-replay') ? ['--no-replay'] : [];
}

/** How many pages were recorded: each run has a folder of its own. */
let runs = 0;

/**
 * Records a page of the server with er_page.
 * @param {string} address
 * @param {string[]} words options
 */
async function record(address, ...words) {
  const cwd = path.join(folder, `${runs++}`);
  fs.mkdirSync(cwd);
  requests = [];
  const begin = Date.now();
  const all = [origin + address, ...words, ...(words.includes('--replay') ? [] : await withoutReplay())];
  const ended = await run(path.join(CHECKOUT, 'er_page'), all, { cwd, longest: LONGEST_RUN });
  return { ...ended, both: `${ended.stdout}\n${ended.stderr}`, cwd, seconds: (Date.now() - begin) / 1000 };
}

/** The pages below have one race each, of a timeout and an answer, so that a recording of all of it ends with status 1. */
const TWO_WRITES = 'setTimeout(() => { k = 1; }, 30); fetch("/data").then(() => { k = 2; });';
/** @param {string} body @param {string} script */
const pageOf = (body, script) => `<!doctype html><title>t</title>${body}<script>${script}</script>`;
serve('/data', 'data', 'text/plain');

test('1: a stale reply has a line of its own', LIMIT, async () => {
  serve('/stale', pageOf('<input id="q"><p id="out"></p>', `
    const state = { isOpen: false, results: '' };
    q.addEventListener('keydown', () => { if (state.isOpen) out.className = 'typing'; });
    q.addEventListener('input', () => {
      fetch('answer.json?q=' + q.value).then((a) => a.json()).then((r) => { state.isOpen = true; state.results = r; out.textContent = state.results; });
    });`));
  serve('/answer.json', '"an answer"', 'application/json');
  const { stdout } = await record('/stale', '--do', 'type:#q:te');
  assert.match(stdout, /may come after a newer one/);
});

test('2: with --attach, a page reaches another port of its machine', LIMIT, async (t) => {
  const other = http.createServer((_, response) => response.writeHead(200, { 'access-control-allow-origin': '*' }).end('data'));
  const port = await listen(other);
  const driven = await startDriven(folder, 'ports');
  t.after(() => {
    driven.end();
    other.close();
  });
  serve('/ports', pageOf('', `fetch('http://127.0.0.1:${port}/').then((a) => a.text()).then((text) => { document.title = text; }, () => { document.title = 'failed'; });`));
  const recorder = start(path.join(CHECKOUT, 'er_record'), ['--attach', `127.0.0.1:${driven.port}`, path.join(folder, 'ports.trace')]);
  await waitFor(() => recorder.said.includes('attached'), `the recorder: ${recorder.said}`);
  await load(driven.tab, `${origin}/ports`);
  assert.strictEqual(await waitFor(() => driven.tab.evaluate('document.title !== "t" && document.title'), 'the answer'), 'data');
});

test('3: a bundle with a source map takes little longer than without', LIMIT, async () => {
  const { script, map } = bundle(20000);
  serve('/bundle', '<!doctype html><body><script src="plain.js"></script>');
  serve('/mapped', '<!doctype html><body><script src="mapped.js"></script>');
  scriptAt('/plain.js', script);
  scriptAt('/mapped.js', `${script}\n//# sourceMappingURL=mapped.js.map\n`);
  serve('/mapped.js.map', map, 'application/json');
  const plain = await record('/bundle');
  const mapped = await record('/mapped');
  assert.ok(mapped.seconds < 2 * plain.seconds + 5, `${plain.seconds} s, with a map ${mapped.seconds} s`);
});

test('4: the clock gives whole numbers, and a request with the time in its address is met again', LIMIT, async () => {
  serve('/clock', pageOf('', `let k; BigInt(Date.now()); var nonce = Date.now();
    for (const path of ['/data', '/other']) { const x = new XMLHttpRequest(); x.open('GET', path + '?_=' + nonce++); x.onload = () => { last = path; }; x.send(); }`));
  serve('/other', 'other', 'text/plain');
  const { both } = await record('/clock', '--replay', '--most', '1');
  assert.doesNotMatch(both, /BigInt|not met again/);
  assert.match(both, /replayed|differs|reversed|turned/);
});

test('5: an act at an element comes after the code that first showed it', LIMIT, async () => {
  serve('/hidden', `<!doctype html><title>hidden</title><style>.hidden { display: none }</style>
    <section id="login" class="hidden"><form id="form"><input id="user"><button id="go">Next</button></form></section>
    <script>addEventListener('load', () => {
      form.onsubmit = () => { document.title = user.value; return false; };
      user.value = '';
      login.classList.remove('hidden');
    });</script>`);
  const { status, both } = await record('/hidden', '--do', 'type:#user:a', '--do', 'click:#go');
  assert.strictEqual(status, 0, both);
});

test('6: the log-in dialog of the browser does not end what is recorded', LIMIT, async () => {
  serve('/dialog', pageOf('<button>b</button>', 'setTimeout(() => { k = 1; }, 50); fetch("/api").then(() => { k = 2; });'));
  answers.set('/api', (_, response) => response.writeHead(401, { 'www-authenticate': 'Basic realm="x"' }).end('no'));
  const { status, both } = await record('/dialog', '--time', '8');
  assert.strictEqual(status, 1, both);
});

test('7: a page after a log-in is recorded with the cookie of the session', LIMIT, async () => {
  answers.set('/account', (request, response) => {
    if (request.headers.cookie === 'session=s1') response.writeHead(200, { 'content-type': 'text/html' }).end(pageOf('', TWO_WRITES));
    else response.writeHead(302, { location: '/login' }).end();
  });
  serve('/login', '<!doctype html><form method="post"><input name="name"></form>');
  const { status, both } = await record('/account', '--cookie', 'session=s1');
  assert.strictEqual(status, 1, both);
});

test('8: --clicks leaves a button alone that quits', LIMIT, async () => {
  serve('/quit', pageOf('<button id="quit">Quit</button> <button>More</button>', 'quit.onclick = () => fetch("/stop", { method: "POST" });'));
  for (const seed of ['1', '2']) {
    const { both } = await record('/quit', '--clicks', '5', '--seed', seed);
    assert.ok(!requests.includes('POST /stop'), both);
  }
});

test('9: a page is requested once', LIMIT, async () => {
  serve('/once', pageOf('', TWO_WRITES));
  await record('/once');
  assert.deepStrictEqual(requests.filter((one) => one.endsWith('/once')), ['GET /once']);
});

test('10: the view of a hundred thousand races is a small file', LIMIT, async () => {
  serve('/many', manyRaces(60, 60));
  const { status, both, cwd } = await record('/many');
  assert.strictEqual(status, 1, both);
  const views = fs.readdirSync(cwd, { recursive: true }).map(String).filter((name) => name.endsWith('page.html'));
  assert.strictEqual(views.length, 1);
  const { size } = fs.statSync(path.join(cwd, views[0]));
  assert.ok(size < MOST_BYTES_OF_A_PAGE, `${size} bytes`);
});

test('11: a page that waits for a long poll is quiet', LIMIT, async () => {
  serve('/poll', pageOf('', `addEventListener('load', () => fetch('/never')); ${TWO_WRITES}`));
  answers.set('/never', () => {});
  const { both, seconds } = await record('/poll', '--time', '60');
  assert.ok(seconds < 50, `${seconds} s: ${both}`);
});

test('12: a counter of open requests is no stale reply', LIMIT, async () => {
  serve('/counter', pageOf('', `const requests = { active: 0 };
    for (const path of ['/data', '/other']) { requests.active++; fetch(path).then(() => { if (!--requests.active) document.title = 'idle'; }); }`));
  serve('/other', 'other', 'text/plain');
  const { both } = await record('/counter');
  assert.doesNotMatch(both, /overwrite a newer one/);
});

test('13: scripts of one path are told apart by what their addresses ask for', LIMIT, async () => {
  serve('/modules', '<!doctype html><script src="/load.php?modules=startup" async></script><script src="/load.php?modules=search" async></script>');
  scriptAt('/load.php', 'which = document.currentScript.src;');
  const { stdout } = await record('/modules');
  assert.match(stdout, /modules=startup/);
  assert.match(stdout, /modules=search/);
});

test('14: an object that each action writes before it reads it hands nothing on', LIMIT, async () => {
  serve('/scratch', pageOf('', `const event = { type: '', target: null };
    const handle = (type, target) => { event.type = type; event.target = target; return event.type + event.target; };
    setTimeout(() => handle('timeout', 1), 30); setTimeout(() => handle('timeout', 2), 60); fetch('/data').then(() => handle('reply', 3));`));
  const { stdout } = await record('/scratch');
  assert.match(stdout, /Each callback that uses `event\.\w+` writes all of it first/);
});

test('15: a syntax error has the words of the browser', LIMIT, async () => {
  serve('/module', '<!doctype html><body><script src="/lib.js"></script>');
  scriptAt('/lib.js', 'function f(){return 1}\nexport { f };\n');
  const { both } = await record('/module');
  assert.match(both, /Unexpected token 'export'/);
});
