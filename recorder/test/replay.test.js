'use strict';
// Small pages with one race each: the run again in the other order, whether it was turned, and what differs. Those of the longer run take ER_TESTS=all.

const assert = require('node:assert');
const { createHash } = require('node:crypto');
const fs = require('node:fs');
const net = require('node:net');
const path = require('node:path');
const { after, before, describe, it, test } = require('node:test');
const { pathToFileURL } = require('node:url');
const { Chromium } = require('../browser/chromium.js');
const { Tab } = require('../browser/tab.js');
const { run, start, temporaryFolder } = require('./cleanup.js');
const { listen, serveFolder } = require('./server.js');
const { replayPage, PAGES } = require('./support.js');
const { cases, more } = require('./replay-cases.js');

const TOP = path.join(__dirname, '..', '..');
const SHOP = path.join(TOP, 'examples', 'shop', 'index.html');
const SIZE = { width: 1100, height: 800 };
const folder = temporaryFolder('replay-test');
/** So many pages load at once. */
const AT_ONCE = 5;
const LONGEST = 400000;
/** @typedef {import('./types').ReplayCase} ReplayCase */
/** @type {Chromium} */
let browser;
before(async () => { browser = await Chromium.launch(SIZE); });
after(async () => { await browser.close(); });

/**
 * Runs a page again in the other order.
 * @param {ReplayCase} one
 */
async function check({ page, words = [], location, differs, worst, why, says }) {
  const { result, said, worst: effect } = await replayPage(browser, page, words, location, folder);
  if (why) {
    assert.strictEqual(result.verdict, 'not turned', said);
    assert.match(result.why || '', why);
    return;
  }
  assert.strictEqual(result.verdict, 'turned', said);
  assert.ok(result.isListed || /the access that was recorded first did not come any more/.test(said), said);
  if (differs) assert.match(said, differs);
  else assert.match(said, /^turned: no visible difference/);
  if (worst) assert.strictEqual(effect, worst, said);
  if (says) assert.match(said, says);
}

/**
 * Pages with a user have the browser alone; of the others several load at once.
 * @param {ReplayCase} one
 */
const hasUser = ({ words = [] }) => words.includes('--do');
/** @param {{isLong?: boolean}} one */
const isChosen = ({ isLong }) => process.env.ER_TESTS === 'all' || !isLong;
const chosen = [...cases, ...more].filter(isChosen);
/** @param {ReplayCase} one */
const nameOf = ({ page, words = [] }) => [page, ...words].join(' ');

describe('pages with no user', { concurrency: AT_ONCE }, () => {
  for (const one of chosen.filter((each) => !hasUser(each))) it(nameOf(one), { timeout: LONGEST }, () => check(one));
});

describe('pages with a user', () => {
  for (const one of chosen.filter(hasUser)) it(nameOf(one), { timeout: LONGEST }, () => check(one));
});

/**
 * Those that are in CI come from the folder there.
 * @type {{page: string, location: string, said: RegExp, isLong?: boolean}[]}
 */
const OF_SERVER = [
  { page: 'race-reply-reply.html', location: 'shown', said: /^turned: differs: text in the recorded order alone: "found for tea?"/ },
  { page: 'race-async-parser.html', location: '#offer', isLong: true, said: /^turned: differs: error in the (recorded|other) order alone: TypeError/ },
  { page: 'race-timeout-image.html', location: 'load of img#dot', isLong: true, said: /^turned: differs: lost event in the (recorded|other) order: the load of img#dot/ },
];

test('pages of a web server, which gets each request once', { timeout: LONGEST }, async () => {
  const server = await serveFolder(PAGES);
  try {
    await Promise.all(OF_SERVER.filter(isChosen).map(async ({ page, location, said }) => {
      assert.match((await replayPage(browser, server.addressOf(`http://localhost/${page}`), [], location, folder)).said, said);
    }));
    const requests = server.requests.filter((one) => one !== '/favicon.ico');
    assert.deepStrictEqual(requests, [...new Set(requests)]);
  } finally {
    server.close();
  }
});

/**
 * A race that a command ran again, as its file has it.
 * @typedef {{location: string, verdict: string, words: string, effect?: string, isListed: boolean, isSeenTwice: boolean, astray: number[], trace: string}
 *   & {differences: {kind: string}[], order: {missing: unknown[], behind: unknown[], unordered: unknown[]}}} Replayed
 */

/**
 * @param {string} own the folder of a list
 * @returns {Replayed[]}
 */
const replayedIn = (own) => JSON.parse(fs.readFileSync(path.join(own, 'page.replay.json'), 'utf8')).races;

/**
 * What each race of the shop does, by its location. Whether the early click comes before the script that sets its handler is the run's own; then no
 * race is at the cart.
 * @type {{[name: string]: RegExp}}
 */
const OF_SHOP = {
  offer: /^turned: differs: error in the (recorded|other) order alone: TypeError/,
  click: /^turned: differs: lost event in the (recorded|other) order: the click at button#add: the click handler onAdd/,
  cart: /^turned: differs: text in the recorded order alone: "In your cart: \d"; text in the other order alone: "In your cart: \d"/,
  value: /^turned: differs: value of input#search: /,
};

test('the shop, by the command', { timeout: 400000 }, async () => {
  const sarif = path.join(folder, 'shop.sarif');
  const words = [SHOP, '--replay', '--slow', '600', '--do', 'early click:#add', '--do', 'type:#search:tea', '--json', '--sarif', sarif];
  const { status, stdout, stderr } = await run(path.join(TOP, 'er_page'), words, { longest: 360000, cwd: folder });
  assert.strictEqual(status, 1, stderr);
  const races = replayedIn(path.join(folder, 'shop.races'));
  const names = races.map(({ location }) => location.split(' ')[2].replace(/\/\d+$/, ''));
  assert.deepStrictEqual(names.filter((name) => name !== 'cart').sort(), ['click', 'offer', 'value'], stderr);
  races.forEach((race, k) => {
    assert.match(race.words, OF_SHOP[names[k]]);
    assert.ok(race.isListed, race.words);
    assert.deepStrictEqual([...race.order.missing, ...race.order.behind, ...race.order.unordered], []);
    assert.ok(stderr.includes(` ${race.effect}: ${race.words.replace(/^turned: differs: /, '')}`), stderr);
    assert.ok(fs.existsSync(path.join(folder, 'shop.races', race.trace)));
  });
  /** @type {{problems: {replay?: {verdict: string, differs: boolean}}[]}} */
  const { problems } = JSON.parse(stdout);
  const replays = problems.flatMap(({ replay }) => (replay ? [replay] : []));
  assert.deepStrictEqual(replays.map(({ verdict, differs }) => [verdict, differs]), races.map(() => ['turned', true]));
  /** @type {{properties?: {replay?: object}, message: {text: string}}[]} */
  const all = JSON.parse(fs.readFileSync(sarif, 'utf8')).runs[0].results;
  const results = all.filter(({ properties }) => properties?.replay);
  assert.strictEqual(results.length, races.length);
  results.forEach(({ message }) => assert.match(message.text, / Replayed: in the other order /));
  await seeView(path.join(folder, 'shop.races', 'page.html'), races.length);
});

/** Two races, each of its own two timeouts. */
const TWO_RACES = `<!doctype html><p id="out">nothing</p><script>
var price = 0, count = 0;
function show(text) { document.getElementById('out').textContent = text; }
setTimeout(function late() { price = 7; }, 60);
setTimeout(function soon() { show('price ' + price); }, 20);
setTimeout(function fill() { count = 1; }, 160);
setTimeout(function ask() { document.title = 'count ' + count; }, 120);
</script>`;

/** Before them a race that does no harm: it is done first, as nothing has to be confirmed. */
const HARMLESS_FIRST = TWO_RACES.replace('</script>', `var seen = 0;
setTimeout(function see() { seen = 1; }, 8);
setTimeout(function look() { window.looked = seen > 5; }, 2);
</script>`);

for (const atOnce of ['1', '4']) {
  test(`Ctrl-C while the page runs again, ${atOnce} at once: what was judged so far is told and written`, { timeout: LONGEST }, async () => {
    const place = path.join(folder, `stop-${atOnce}`);
    const own = path.join(place, 't'); // the browser's sockets are there, whose paths must be short
    fs.mkdirSync(own, { recursive: true });
    fs.writeFileSync(path.join(place, 'races.html'), HARMLESS_FIRST);
    const command = start(path.join(TOP, 'er_page'), ['races.html', '--replay', '--at-once', atOnce], { cwd: place, env: { ...process.env, TMPDIR: own } });
    while (!command.said.includes('  1 of 3: ') && command.exitCode === null) await new Promise((resolve) => setTimeout(resolve, 50));
    command.kill('SIGINT');
    assert.strictEqual(await command.ended, 130, command.said);
    assert.match(command.said, /er_page: stopped/);
    assert.match(command.output, /^Replayed 1 of 3 races: 0 differ, 1 without a visible difference\.$/m);
    const races = replayedIn(path.join(place, 'races.races'));
    assert.deepStrictEqual(races.map(({ verdict, effect }) => [verdict, effect]), [['turned', undefined]]);
    const view = fs.readFileSync(path.join(place, 'races.races', 'page.html'), 'utf8');
    assert.strictEqual(JSON.parse(/id="model">(.*)<\/script>/.exec(view)?.[1] || '').replays.length, 1);
    assert.deepStrictEqual(fs.readdirSync(own), []);
  });
}

test('Ctrl-C before a replay has ended: a line says so', { timeout: LONGEST }, async () => {
  const place = path.join(folder, 'stop-none');
  fs.mkdirSync(place);
  fs.writeFileSync(path.join(place, 'races.html'), TWO_RACES);
  const command = start(path.join(TOP, 'er_page'), ['races.html', '--replay', '--at-once', '1'], { cwd: place, env: process.env });
  while (!command.said.includes('Each of 2 run again') && command.exitCode === null) await new Promise((resolve) => setTimeout(resolve, 20));
  command.kill('SIGINT');
  assert.strictEqual(await command.ended, 130, command.said);
  assert.match(command.output, /^Replayed 0 of 2 races\.$/m);
  assert.match(command.output, /^2 problems \(.*\); the view is /m);
  assert.deepStrictEqual(replayedIn(path.join(place, 'races.races')), []);
  assert.doesNotMatch(fs.readFileSync(path.join(place, 'races.races', 'page.html'), 'utf8'), /by what the other order does/);
});

/**
 * What a replay found of a race, the same in each replay.
 * @param {Replayed} race
 * @returns {[location: string, verdict: string, kinds: string[], ...facts: unknown[]]}
 */
const foundOf = ({ location, verdict, differences, isListed, isSeenTwice, astray }) => [location, verdict, differences.map(({ kind }) => kind), isListed, isSeenTwice, astray];

test('several runs at once find what one after the other finds', { timeout: LONGEST }, async () => {
  const found = [];
  for (const atOnce of ['1', '4']) {
    const own = path.join(folder, `at-once-${atOnce}`);
    fs.mkdirSync(own);
    fs.writeFileSync(path.join(own, 'two-races.html'), TWO_RACES);
    const { status, stderr } = await run(path.join(TOP, 'er_page'), ['two-races.html', '--replay', '--at-once', atOnce], { longest: LONGEST, cwd: own });
    assert.strictEqual(status, 1, stderr);
    assert.match(stderr, /^ {2}2 of 2: .*: differs \(\d+ runs; [\d.]+ s\)$/m);
    const runs = fs.readdirSync(path.join(own, 'two-races.races', 'replays')).filter((name) => name.endsWith('.trace'));
    assert.ok(runs.includes('1+2-again.trace') && !runs.includes('1-again.trace'), runs.join(', '));
    found.push(replayedIn(path.join(own, 'two-races.races')).map(foundOf).sort());
  }
  assert.deepStrictEqual(found[1], found[0]);
  assert.deepStrictEqual(found[0].map(([, verdict, kinds, ...rest]) => [verdict, kinds[0], ...rest]), [['turned', 'title', true, true, []], ['turned', 'text', true, true, []]]);
});

test('what would change something on another machine is not sent again without --yes', { timeout: 150000 }, async () => {
  const { status, stdout, stderr } = await run(path.join(TOP, 'er_page'), [path.join(PAGES, 'race-posts.html'), '--replay'], { longest: 140000, cwd: folder });
  assert.strictEqual(status, 2, stderr);
  assert.match(stdout, /^\S*race-posts\.html:\d+ {2}.*`state`/m);
  assert.match(stderr, /^er_page: not run again: each run would send once more: POST http:\/\/shop\.invalid:1\/save; --yes lets it$/m);
});

test('what a socket tells', { timeout: LONGEST, skip: !isChosen({ isLong: true }) && 'in the longer run alone' }, async () => {
  const server = net.createServer((socket) => {
    socket.on('error', () => {});
    socket.once('data', (head) => {
      const key = /Sec-WebSocket-Key: (\S+)/i.exec(String(head))?.[1];
      const accept = createHash('sha1').update(`${key}258EAFA5-E914-47DA-95CA-C5AB0DC85B11`).digest('base64');
      socket.write(`HTTP/1.1 101 Switching Protocols\r\nUpgrade: websocket\r\nConnection: Upgrade\r\nSec-WebSocket-Accept: ${accept}\r\n\r\n`);
      socket.write(Buffer.from([0x81, 4, ...Buffer.from('told')]));
    });
  });
  const port = await listen(server);
  try {
    const { said } = await replayPage(browser, `race-web-socket.html?${port}`, [], 'state', folder);
    assert.match(said, /^turned: differs: text in the recorded order alone: "(told|late)"; text in the other order alone: "(told|late)"/);
  } finally {
    server.close();
  }
});

/**
 * The view has a badge for each race, and folds out to the differences and both pictures.
 * @param {string} file
 * @param {number} races
 */
async function seeView(file, races) {
  const tab = await Tab.open(browser, SIZE);
  await tab.send('Page.enable');
  const loaded = new Promise((resolve) => tab.on('Page.loadEventFired', resolve));
  await tab.send('Page.navigate', { url: pathToFileURL(file).href });
  await loaded;
  const badges = await tab.evaluate("[...document.querySelectorAll('details.group > summary .verdict')].map((badge) => badge.textContent)");
  assert.deepStrictEqual(badges, Array(races).fill('turned: differs'));
  assert.strictEqual(await tab.evaluate("document.getElementById('order').value"), 'looks');
  await tab.evaluate("document.querySelectorAll('details.group').forEach((group) => { group.open = true; })");
  await new Promise((resolve) => setTimeout(resolve, 500));
  assert.strictEqual(await tab.evaluate("[...document.querySelectorAll('.end img')].filter((image) => image.naturalWidth > 0).length"), 2 * races);
  assert.ok(await tab.evaluate("document.querySelectorAll('.replay table.differences tr').length") >= 2 * races);
  assert.ok(await tab.evaluate("document.querySelectorAll('.marked rect').length") >= 2);
  await tab.close();
}
