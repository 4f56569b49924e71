'use strict';
// Recordings that are not what was meant: steps that could not be done, a time that was over, pages that servers refuse. In a browser.

const assert = require('node:assert');
const fs = require('node:fs');
const http = require('node:http');
const path = require('node:path');
const { after, before, test } = require('node:test');
const { run, temporaryFolder } = require('./cleanup.js');

const TOP = path.join(__dirname, '..', '..');
const LIMIT = { timeout: 150000 };
const LONGEST_RUN = 90000;
const folder = temporaryFolder('incomplete');

const BUTTON = '<!doctype html><title>b</title><button id="now">now</button><p id="hidden" style="display: none"></p>';
const HARM = ['>Delete all', ' id="btnLogOut">x', ' title="Shut down">y', ' aria-label="remove item">z', ' name="reset-form">r', '><i title="Quit">q</i>']
  .map((rest) => `<button onclick="throw new Error('harmed')"${rest}</button>`).join('');
/** @type {{[path: string]: {status?: number, body?: string, headers?: {[name: string]: string}}}} what is not here never answers */
const ANSWERS = {
  '/button': { body: BUTTON },
  '/late': { body: `${BUTTON}<script>setTimeout(() => { document.body.insertAdjacentHTML('beforeend', '<button id="late">late</button>'); }, 1500);</script>` },
  '/hangs': { body: `${BUTTON}<script>addEventListener('load', () => fetch('/never'));</script>` },
  '/races': { body: `${BUTTON}<script>addEventListener('load', () => fetch('/never')); setTimeout(() => { seen = 1; }, 20);</script><script src="/code.js" async></script>` },
  '/slow': { body: `${BUTTON}<script src="/slow.js"></script>` },
  '/harm': { body: `<!doctype html><title>h</title><button onclick="throw new Error('answer ' + confirm('?'))">Search the catalog</button>${HARM}` },
  '/once': { body: BUTTON },
  '/links': { body: '<!doctype html><title>l</title><a href="/gone">away</a> <a href="/gone">away too</a><div style="height: 3000px"></div><button>far down</button>' },
  '/text': { body: '<!doctype html><title>t</title><p>text</p>' },
  '/code.js': { body: 'var seen = 2;', headers: { 'content-type': 'text/javascript' } },
  '/favicon.ico': { status: 404, body: '' },
  '/user': { body: BUTTON },
  '/gone': { status: 404, body: 'gone' },
  '/broken': { status: 500, body: '<h1>broken</h1>' },
  '/locked': { status: 403, body: '<h1>locked</h1>' },
};

/** @type {string} */
let origin;
/** How often the link was requested that is valid once. */
let uses = 0;
const USER = `Basic ${Buffer.from('me:geheim').toString('base64')}`;

const server = http.createServer((request, response) => {
  if (request.url === '/user' && request.headers.authorization !== USER) {
    response.writeHead(401, { 'www-authenticate': 'Basic realm="shop"', 'content-type': 'text/html' });
    response.end('who?');
    return;
  }
  if (request.url === '/once') uses++;
  if (request.url === '/once' && uses > 1) {
    response.writeHead(410).end('used');
    return;
  }
  if (request.url === '/slow.js') {
    setTimeout(() => response.writeHead(200, { 'content-type': 'text/javascript' }).end('setInterval(() => fetch("/button"), 100); fetch("/never");'), 3000);
    return;
  }
  const { status = 200, body, headers = { 'content-type': 'text/html' } } = ANSWERS[request.url || ''] || {};
  if (body === undefined) return;
  response.writeHead(status, headers);
  response.end(body);
});
before(async () => {
  await new Promise((resolve) => server.listen(0, '127.0.0.1', () => resolve(null)));
  origin = `http://127.0.0.1:${/** @type {import('node:net').AddressInfo} */ (server.address()).port}`;
});
after(() => {
  server.closeAllConnections();
  server.close();
});

/**
 * @param {string} command
 * @param {string[]} args
 */
const call = (command, ...args) => run(path.join(TOP, command), args, { cwd: folder, longest: LONGEST_RUN });
/** @param {string} page */
const filesOf = (page) => fs.readdirSync(path.join(folder, `${page}.races`)).sort();

test('a step that could not be done fails the run, and all files are written', LIMIT, async () => {
  const { status, stdout, stderr } = await call('er_page', `${origin}/button`, '--do', 'click:#now', '--do', 'click:#typo', '--do', 'type:#hidden:x');
  assert.strictEqual(status, 6, stderr);
  assert.match(stderr, /^er_page: not done: step 2 of --do, click:#typo: no element matches the selector, after 5 s$/m);
  assert.match(stderr, /^er_page: not done: step 3 of --do, type:#hidden:x: the element has no size/m);
  assert.match(stdout, /^No race in what was recorded, which is not complete\. Done in the page: 1 click, nothing typed\.$/m);
  assert.deepStrictEqual(filesOf('button'), ['page.html', 'page.names.json', 'page.report', 'page.trace']);
});

test('a user flow of the Recorder panel', LIMIT, async () => {
  const flow = path.join(folder, 'flow.json');
  const click = (/** @type {string} */ selector) => ({ type: 'click', target: 'main', selectors: [['aria/x'], [selector]] });
  fs.writeFileSync(flow, JSON.stringify({ title: 'f', steps: [{ type: 'setViewport', width: 700, height: 500 }, { type: 'navigate', url: `${origin}/button` }, click('#now'), click('#none')] }));
  const trace = path.join(folder, 'flow.trace');
  const { status, stderr } = await call('er_record', trace, '--flow', flow);
  assert.strictEqual(status, 6, stderr);
  assert.match(stderr, /^er_record: not done: step 4 of flow\.json, click aria\/x: no element matches the selector, after 5 s; the steps after it were not done$/m);
  assert.match(fs.readFileSync(trace, 'utf8'), /^(fire|inline) \d+ \d+ click$/m);
});

test('--keep-going makes it a warning', LIMIT, async () => {
  const { status, stdout, stderr } = await call('er_page', `${origin}/button`, '--do', 'click:li:bad(', '--keep-going');
  assert.strictEqual(status, 0, stderr);
  assert.match(stderr, /^ {2}not done: step 1 of --do, click:li:bad\(: the selector is not valid$/m);
  assert.match(stdout, /^No race\. Done in the page: nothing clicked or typed/m);
});

test('a step waits for a target that a timer makes', LIMIT, async () => {
  const trace = path.join(folder, 'late.trace');
  const { status, stderr } = await call('er_record', `${origin}/late`, trace, '--do', 'click:#late');
  assert.strictEqual(status, 0, stderr);
  assert.match(fs.readFileSync(trace, 'utf8'), /^(fire|inline) \d+ \d+ click$/m);
});

test('a recording whose time was over is not complete', LIMIT, async () => {
  const { status, stdout, stderr } = await call('er_page', `${origin}/hangs`, '--time', '3', '--do', 'click:#now', '--clicks', '2');
  assert.strictEqual(status, 4, stderr);
  assert.match(stderr, /^er_page: the recording is not complete: the time of 3 s was over before the page was quiet$/m);
  assert.match(stdout, /^No race in what was recorded, which is not complete\. Done in the page: \d clicks?, nothing typed\.$/m);
  const races = await call('er_page', `${origin}/races`, '--time', '3');
  assert.strictEqual(races.status, 1, races.stderr);
  assert.match(races.stderr, /the recording is not complete/);
  assert.match(races.stdout, /^\d+ problems? \(.*\), in a recording that is not complete; the view is /m);
  const view = fs.readFileSync(path.join(folder, 'races.races', 'page.html'), 'utf8');
  assert.match(view, /The recording is not complete, so races might be missing: the time of 3 s was over before the page was quiet/);
});

test('acts are done before the time is over, which is counted from the end of load', LIMIT, async () => {
  const { stderr } = await call('er_record', `${origin}/slow`, path.join(folder, 'slow.trace'), '--time', '6', '--do', 'click:#now');
  assert.match(stderr, /the time of 6 s was over before the page was quiet$/m);
  assert.match(fs.readFileSync(path.join(folder, 'slow.trace'), 'utf8'), /^(fire|inline) \d+ \d+ click$/m);
});

test('a page that only waits for a long poll is quiet', LIMIT, async () => {
  const begin = Date.now();
  const { status, stderr } = await call('er_record', `${origin}/hangs`, path.join(folder, 'poll.trace'), '--time', '60', '--do', 'click:#now');
  assert.strictEqual(status, 0, stderr);
  assert.ok(Date.now() - begin < 45000, stderr);
  assert.match(stderr, /not recorded: what comes of requests that had no answer for long: 1$/m);
  assert.match(fs.readFileSync(path.join(folder, 'poll.trace'), 'utf8'), /^(fire|inline) \d+ \d+ click$/m);
});

test('clicks avoid what does harm, are named, and their dialogs are dismissed', LIMIT, async () => {
  const { status, stderr } = await call('er_record', `${origin}/harm`, path.join(folder, 'harm.trace'), '--clicks', '8');
  assert.strictEqual(status, 0, stderr);
  assert.strictEqual([...stderr.matchAll(/^ {2}click at button "Search the catalog"$/gm)].length, 8, stderr);
  assert.match(stderr, /error: Error: answer false/);
  assert.ok(!/harmed/.test(stderr), stderr);
  const all = await call('er_record', `${origin}/harm`, path.join(folder, 'harm.trace'), '--clicks', '8', '--avoid', 'search');
  assert.match(all.stderr, /error: Error: harmed/);
  assert.ok(!/click at button "Search/.test(all.stderr), all.stderr);
});

test('clicks prefer what stays in the page, scroll to it, and follow a link that leaves once', LIMIT, async () => {
  const far = await call('er_record', `${origin}/links`, path.join(folder, 'links.trace'), '--clicks', '2');
  assert.strictEqual([...far.stderr.matchAll(/^ {2}click at button "far down"$/gm)].length, 2, far.stderr);
  const left = await call('er_page', `${origin}/links`, '--clicks', '3', '--avoid', 'far');
  assert.strictEqual([...left.stderr.matchAll(/^ {2}click at a "away/gm)].length, 1, left.stderr);
  assert.match(left.stderr, /^ {2}nothing else to click: 1 of 3 clicks were done \(--do STEP acts at any element\)$/m);
  assert.match(left.stdout, /^No race\. Done in the page: 1 click, nothing typed\.$/m);
});

test('a page without anything to click', LIMIT, async () => {
  const { status, stdout, stderr } = await call('er_page', `${origin}/text`, '--clicks', '5');
  assert.strictEqual(status, 0, stderr);
  assert.match(stderr, /^ {2}nothing to click: 0 of 5 clicks were done/m);
  assert.match(stdout, /^No race\. Done in the page: nothing clicked or typed \(--clicks N, --do STEP\)\.$/m);
});

test('a link that is valid once', LIMIT, async () => {
  const { status, stderr } = await call('er_page', `${origin}/once`);
  assert.strictEqual(status, 0, stderr);
  assert.strictEqual(uses, 1);
});

test('a page that its server refuses did not load', LIMIT, async () => {
  for (const [page, said] of [['gone', /^er_page: \S+ did not load: the server answered 404 \(no such page\)$/m], ['broken', /did not load: the server answered 500$/m], ['locked', /answered 403$/m]]) {
    const { status, stdout, stderr } = await call('er_page', `${origin}/${page}`);
    assert.deepStrictEqual([status, stdout], [4, ''], stderr);
    assert.match(stderr, /** @type {RegExp} */ (said));
  }
});

test('a password is in no file', LIMIT, async () => {
  const address = `${origin}/user`.replace('//', '//me:geheim@');
  const { status, stderr } = await call('er_page', address, '--header', 'X-Token: geheim');
  assert.strictEqual(status, 0, stderr);
  assert.ok(!stderr.includes('geheim'), stderr);
  for (const file of filesOf('user')) assert.ok(!fs.readFileSync(path.join(folder, 'user.races', file), 'utf8').includes('geheim'), file);
});

test('a server that requires a user', LIMIT, async () => {
  const refused = await call('er_page', `${origin}/user`);
  assert.strictEqual(refused.status, 4, refused.stderr);
  assert.match(refused.stderr, /did not load: the server answered 401 \(it requires a user: --http-credentials USER:PASSWORD, or --header\)$/m);
  for (const args of [['--http-credentials', 'me:geheim'], ['--header', `Authorization: ${USER}`]]) {
    const { status, stderr } = await call('er_page', `${origin}/user`, ...args);
    assert.strictEqual(status, 0, `${args}: ${stderr}`);
  }
});

test('a folder is opened at /, and --fallback answers for its routes', LIMIT, async () => {
  const site = path.join(folder, 'site');
  fs.mkdirSync(site);
  fs.writeFileSync(path.join(site, 'index.html'), '<!doctype html><title>s</title><script>throw new Error(`at ${location.pathname}`);</script>');
  const root = await call('er_page', site);
  assert.strictEqual(root.status, 0, root.stderr);
  assert.match(root.stderr, /error: Error: at \/ \(/);
  const args = [path.join(site, 'shop', 'cart'), '--root', site];
  assert.strictEqual((await call('er_page', ...args)).status, 4);
  const routed = await call('er_page', ...args, '--fallback', 'index.html');
  assert.strictEqual(routed.status, 0, routed.stderr);
  assert.match(routed.stderr, /error: Error: at \/shop\/cart \(/);
});

test('scripts and pages of frames that the folder does not have', LIMIT, async () => {
  const site = path.join(folder, 'lacking');
  fs.mkdirSync(site);
  const scripts = ['gone.js', 'gone.js?again', 'away.js', 'there.js'].map((name) => `<script src="${name}"></script>`).join('');
  fs.writeFileSync(path.join(site, 'index.html'), `<!doctype html><title>s</title>${scripts}<iframe src="frame.html"></iframe><img src="gone.png">`);
  fs.writeFileSync(path.join(site, 'there.js'), 'var there = 1;');
  fs.writeFileSync(path.join(folder, 'away.js'), 'var away = 1;');
  fs.symlinkSync(path.join(folder, 'away.js'), path.join(site, 'away.js'));
  const { status, stdout, stderr } = await call('er_page', path.join(site, 'index.html'));
  assert.strictEqual(status, 0, stderr);
  assert.match(stderr, /^ {2}not recorded: scripts and pages of frames, not served: 3, 1 of them a link to another place \(gone\.js, away\.js, \.\.\): --root DIR, with a folder that has them$/m);
  assert.strictEqual(stderr.match(/not served/g)?.length, 1, stderr);
  assert.match(stdout, /^No race, but 3 files of the page were not served \(gone\.js, away\.js, \.\.\): --root DIR, with a folder that has them\. Done in the page: nothing clicked/m);
});
