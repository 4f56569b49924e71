'use strict';
// What a user does in the steps of --do and of a flow, by each kind of step and of selector, and a flow over several pages. In a browser.

const assert = require('node:assert');
const fs = require('node:fs');
const http = require('node:http');
const path = require('node:path');
const { after, before, test } = require('node:test');
const { run, start, temporaryFolder } = require('./cleanup.js');
const { sleep } = require('../common/time.js');

const TOP = path.join(__dirname, '..', '..');
const LIMIT = { timeout: 150000 };
const LONGEST_RUN = 90000;
const folder = temporaryFolder('flow');
const SECRET = 'hunter22-secret';

/** Reports each event that a user makes to the server, with its target, and with the value of a field. */
const REPORTS = `<script>for (const type of ['click', 'dblclick', 'auxclick', 'mouseover', 'keydown', 'keyup', 'change', 'wheel', 'input'])
  addEventListener(type, (event) => { const { target, key = '', ctrlKey } = event; fetch('/seen?' + encodeURIComponent([type, event.composedPath()[0].id, event.isTrusted,
    key && (ctrlKey ? 'Control+' : '') + key, target.files?.length ? target.files[0].name : target.value].join(' '))); }, { capture: true, passive: true });</script>`;
const CONTROLS = `<!doctype html><title>c</title>${REPORTS}<button id="save"><span id="inner">Save  all</span></button> <button id="other" aria-label="Save">x</button>
  <input id="q" value="old"> <label>Colour <select id="list"><option>red</option><option value="g">green</option><option disabled>none</option><option>blue</option></select></label>
  <select id="many" multiple size="3"><option>one</option><option>two</option></select> <input type="file" id="file"> <input type="range" id="range" max="9">
  <div id="host"></div> <iframe id="frame" srcdoc="<button id=inside onclick='parent.fetch(&quot;/seen?inside&quot;)'>In</button>" style="width: 100px; height: 40px"></iframe>
  <div id="box" style="height: 60px; width: 90px; overflow: auto"><p style="height: 900px">tall</p></div> <p style="height: 3000px"></p>
  <script>document.getElementById('host').attachShadow({ mode: 'open' }).innerHTML = '<button id="deep">Deep</button>';
  setTimeout(() => { ready = true; document.body.insertAdjacentHTML('beforeend', '<i class="late" id="late" data-k="v">l</i>'); }, 300);</script>`;
/** @type {{[path: string]: string}} */
const PAGES = {
  '/controls': CONTROLS,
  '/login': '<!doctype html><title>Log in</title><form method="post" action="/login"><input name="user" id="user"><input type="password" name="word" id="word"><button id="go">Log in</button></form>',
  '/home': '<!doctype html><title>Home</title><a href="/shop" id="shop">Shop</a><button id="route">Route</button><p id="who"></p><script src="/who.js" async></script>'
    + '<script>document.getElementById("route").onclick = () => history.pushState(null, "", "/home/2"); setTimeout(() => { total = 1; }, 20);</script>',
  '/shop': '<!doctype html><title>Shop</title><button id="add">Add</button><script src="/who.js" async></script><script>setTimeout(() => { total = 1; }, 20);</script>',
};
/** @type {string} */
let origin;
/** @type {string[]} */
let seen = [];
/** @type {(string|undefined)[]} */
let tokens = [];

const server = http.createServer((request, response) => {
  const [name, query = ''] = (request.url || '').split('?');
  if (name === '/seen') seen.push(decodeURIComponent(query));
  const isIn = /(^|; )session=ok-0123456789/.test(request.headers.cookie || '');
  if (name === '/login' && request.method === 'POST') {
    response.writeHead(303, { location: '/home', 'set-cookie': 'session=ok-0123456789; HttpOnly; Path=/' }).end();
    return;
  }
  if (name === '/never') return;
  tokens.push(request.headers['x-token'] && String(request.headers['x-token']));
  if (name === '/who.js') response.writeHead(200, { 'content-type': 'text/javascript' }).end('total = 2;');
  else if (!PAGES[name] || (!isIn && /home|shop/.test(name))) response.writeHead(PAGES[name] ? 403 : 404, { 'content-type': 'text/html' }).end('no');
  else response.writeHead(200, { 'content-type': 'text/html' }).end(PAGES[name]);
});
before(async () => {
  await new Promise((resolve) => server.listen(0, '127.0.0.1', () => resolve(null)));
  origin = `http://127.0.0.1:${/** @type {import('node:net').AddressInfo} */ (server.address()).port}`;
});
after(() => {
  server.closeAllConnections();
  server.close();
});

/**
 * @param {string} command
 * @param {string[]} args
 */
function call(command, ...args) {
  seen = [];
  tokens = [];
  return run(path.join(TOP, command), args, { cwd: folder, longest: LONGEST_RUN });
}

/**
 * Writes a flow. Returns its file.
 * @param {string} name
 * @param {object[]} steps
 */
function flowOf(name, ...steps) {
  const file = path.join(folder, `${name}.json`);
  fs.writeFileSync(file, JSON.stringify({ title: name, steps }));
  return file;
}

/** The types of what was seen at an element. */
const typesAt = (/** @type {string} */ id) => seen.map((one) => one.split(' ')).filter(([, at]) => at === id).map(([type]) => type);

/** @param {string[]} steps */
const does = (...steps) => call('er_record', `${origin}/controls`, path.join(folder, 'controls.trace'), ...steps.flatMap((step) => ['--do', step]));

test('steps of --do: hover, select, upload, press, and selectors in the spelling of Playwright', LIMIT, async () => {
  fs.writeFileSync(path.join(folder, 'up load.txt'), 'x');
  const { status, stderr } = await does('hover:text=save all', 'click:role=button[name="Save"]', 'select:#list:blue', 'select:role=combobox:g', 'select:#many:two', 'upload:#file:up load.txt',
    'press:#q:Control+a', 'press:role=textbox:End', 'click:#host >>> #deep', 'click:xpath=//button[@id="save"]', 'click:text="Deep"');
  assert.strictEqual(status, 0, stderr);
  assert.ok(seen.includes('mouseover inner true  '), seen.join('\n'));
  assert.deepStrictEqual(typesAt('other').filter((type) => type === 'click'), ['click']);
  assert.deepStrictEqual(seen.filter((one) => /^change list /.test(one)), ['change list true  blue', 'change list true  g']);
  assert.ok(seen.includes('change many true  two') && seen.includes('change file true  up load.txt'), seen.join('\n'));
  assert.ok(seen.includes('keydown q true Control+a old') && seen.includes('keydown q true End old'), seen.join('\n'));
  assert.deepStrictEqual(typesAt('deep').filter((type) => type === 'click').length, 2);
  assert.ok(typesAt('inner').includes('click'));
});

test('a step of --do that cannot be done says what to do', LIMIT, async () => {
  const { status, stderr } = await does('select:#save:x', 'select:#list:pink', 'select:#list:none', 'upload:#save:up load.txt', 'press:#host:a', 'click:role=link');
  assert.strictEqual(status, 6, stderr);
  assert.match(stderr, /not done: step 1 of --do, .*: the element is no list \(select\) of options: use click$/m);
  assert.match(stderr, /not done: step 2 of --do, .*: the list has no option that can be chosen with this value or text: pink$/m);
  assert.match(stderr, /not done: step 3 of --do, .*: the list has no option that can be chosen/m);
  assert.match(stderr, /not done: step 4 of --do, .*: the element takes no file/m);
  assert.match(stderr, /not done: step 5 of --do, .*: the element takes no focus: use key:KEY$/m);
  assert.match(stderr, /not done: step 6 of --do, .*: no element matches the selector, after 5 s$/m);
});

const STEPS = [
  { type: 'setViewport', width: 900, height: 600 }, { type: 'waitForElement', selectors: ['.late'], attributes: { 'data-k': 'v' }, properties: { localName: 'i' }, visible: true },
  { type: 'waitForExpression', expression: 'new Promise((resolve) => setTimeout(() => resolve(window.ready), 50))' },
  { type: 'waitForElement', selectors: ['option'], operator: '==', count: 6 },
  { type: 'doubleClick', selectors: [['aria/No such'], ['#none', '#x'], ['#save']], offsetX: 3, offsetY: 3 }, { type: 'hover', selectors: [['aria/Save[role="button"]']] },
  { type: 'click', selectors: [['pierce/#deep']], target: 'main' }, { type: 'click', selectors: [['#host', '#deep']] }, { type: 'click', selectors: [['text/Save all']], button: 'auxiliary' },
  { type: 'change', selectors: [['xpath///*[@id="q"]']], value: 'new' }, { type: 'change', selectors: [['aria/Colour']], value: 'g' }, { type: 'change', selectors: ['#range'], value: '7' },
  { type: 'click', selectors: ['#q'] }, { type: 'keyDown', key: 'Control' }, { type: 'keyDown', key: 'a' }, { type: 'keyUp', key: 'a' }, { type: 'keyUp', key: 'Control' },
  { type: 'scroll', selectors: ['#box'], x: 0, y: 200 }, { type: 'click', selectors: ['#inside'], frame: [0] }, { type: 'scroll', x: 0, y: 400 }, { type: 'waitForExpression', expression: 'scrollY > 100' },
];

test('each type of step of a flow, and each kind of selector', LIMIT, async () => {
  const trace = path.join(folder, 'steps.trace');
  const { status, stderr } = await call('er_record', trace, '--flow', flowOf('steps', { type: 'navigate', url: `${origin}/controls` }, ...STEPS));
  assert.strictEqual(status, 0, stderr);
  assert.ok(typesAt('inner').includes('dblclick') || typesAt('save').includes('dblclick'), seen.join('\n'));
  assert.ok(typesAt('other').includes('mouseover') && !typesAt('other').includes('click'));
  assert.strictEqual(typesAt('deep').filter((type) => type === 'click').length, 2);
  assert.ok(typesAt('inner').includes('auxclick'));
  assert.ok(seen.includes('input q true  new') && seen.includes('change list true  g') && seen.includes('change range false  7'), seen.join('\n'));
  assert.ok(seen.includes('keydown q true Control+Control new') && seen.includes('keydown q true Control+a new') && seen.includes('keyup q true Control+a new'), seen.join('\n'));
  assert.ok(seen.includes('inside') && seen.some((one) => one.startsWith('wheel ')), seen.join('\n'));
  const { recording } = JSON.parse(fs.readFileSync(trace.replace(/trace$/, 'names.json'), 'utf8'));
  assert.strictEqual(recording.words.filter((/** @type {string} */ word) => word.startsWith('--step=')).length, STEPS.length - 1);
});

test('a step of a flow that fails ends it with status 6 and its number', LIMIT, async () => {
  const file = flowOf('fails', { type: 'navigate', url: `${origin}/controls` }, { type: 'waitForExpression', expression: 'window.none', timeout: 300 }, { type: 'click', selectors: ['#save'] });
  const { status, stderr } = await call('er_record', path.join(folder, 'fails.trace'), '--flow', file);
  assert.strictEqual(status, 6, stderr);
  assert.match(stderr, /not done: step 2 of fails\.json, waitForExpression window\.none: the expression was not true, after 0\.3 s; the steps after it were not done$/m);
  assert.ok(!typesAt('save').includes('click'));
  const going = await call('er_record', path.join(folder, 'fails.trace'), '--flow', file, '--keep-going');
  assert.strictEqual(going.status, 0, going.stderr);
  assert.ok(typesAt('inner').includes('click'));
});

/** @param {object[]} more */
const loginSteps = (...more) => [
  { type: 'navigate', url: `${origin}/login` }, { type: 'change', selectors: ['#user'], value: 'me' }, { type: 'change', selectors: ['#word'], value: SECRET },
  { type: 'click', selectors: [['aria/Log in'], ['#go']], assertedEvents: [{ type: 'navigation', url: `${origin}/home`, title: 'Home' }] }, ...more,
];

test('a flow that logs in and goes on: each load of its own, one list of all, and no secret in any file', LIMIT, async () => {
  const steps = loginSteps({ type: 'click', selectors: ['#route'], assertedEvents: [{ type: 'navigation' }] }, { type: 'navigate', url: `${origin}/shop` }, { type: 'click', selectors: ['#add'] });
  const { status, stdout, stderr } = await call('er_page', '--flow', flowOf('shop', ...steps), '--header', `X-Token: ${SECRET}-token`);
  assert.strictEqual(status, 1, stderr);
  assert.match(stdout, /seen in 1 of 3 loads: flow-002-\S+-home\.html \(shop\.json\)$/m);
  assert.match(stdout, /seen in 1 of 3 loads: flow-003-\S+-shop\.html \(shop\.json\)$/m);
  assert.match(stdout, /^shop\.races: 3 page loads, index\.html$/m);
  assert.match(stderr, /^er_page: load 3, http:.*\/shop: \d+ actions$/m);
  assert.ok(tokens.length > 4 && tokens.every((one) => one === `${SECRET}-token`), tokens.join(' '));
  const files = fs.readdirSync(path.join(folder, 'shop.races'));
  assert.strictEqual(files.filter((name) => name.endsWith('.trace')).length, 3, files.join(' '));
  for (const file of files) {
    const text = fs.readFileSync(path.join(folder, 'shop.races', file), 'utf8');
    assert.ok(!text.includes(SECRET) && !text.includes('ok-0123456789'), file);
  }
  assert.ok(!(stdout + stderr).includes(SECRET));
});

test('a step that leads to no other page, a page that is refused', LIMIT, async () => {
  const stays = { type: 'click', selectors: ['#add'], timeout: 400, assertedEvents: [{ type: 'navigation' }] };
  const { status, stderr } = await call('er_page', '--flow', flowOf('stays', ...loginSteps({ type: 'navigate', url: `${origin}/shop` }, stays, { type: 'click', selectors: ['#add'] })));
  assert.strictEqual(status, 6, stderr);
  assert.match(stderr, /not done: step 6 of stays\.json, click #add: no other page came, after 0\.4 s$/m);
  assert.match(stderr, /^er_page: not done after that: 1 step$/m);
  const refused = await call('er_page', '--flow', flowOf('refused', { type: 'navigate', url: `${origin}/login` }, { type: 'navigate', url: `${origin}/shop` }));
  assert.strictEqual(refused.status, 6, refused.stderr);
  assert.match(refused.stderr, /not done: step 2 of refused\.json, navigate http:.*\/shop: the page did not load: the server answered 403$/m);
});

test('a flow of several pages stops by a signal, with what came', LIMIT, async () => {
  const file = flowOf('long', ...loginSteps({ type: 'waitForExpression', expression: 'false', timeout: 60000 }));
  const command = start(path.join(TOP, 'er_page'), ['--flow', file], { cwd: folder });
  for (const until = Date.now() + LONGEST_RUN; !/step 5 of 5/.test(command.said) && Date.now() < until;) await sleep(50);
  command.kill('SIGINT');
  assert.strictEqual(await command.ended, 130, command.said);
  assert.match(command.output, /long\.races: 2 page loads/);
});

test('what does not go with a flow of several pages', LIMIT, async () => {
  const file = flowOf('many', { type: 'navigate', url: `${origin}/login` }, { type: 'navigate', url: `${origin}/shop` });
  for (const args of [['--replay'], ['--runs', '2'], ['--do', 'click:#a']]) {
    const { status, stderr } = await call('er_page', '--flow', file, ...args);
    assert.deepStrictEqual([status, new RegExp(`${args[0]} cannot be combined with a flow that loads several pages`).test(stderr)], [2, true], stderr);
  }
  const recorded = await call('er_record', path.join(folder, 'many.trace'), '--flow', file);
  assert.deepStrictEqual([recorded.status, /the flow loads several pages, which er_page records/.test(recorded.stderr)], [2, true]);
});
