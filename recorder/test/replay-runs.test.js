'use strict';
// Replays with --runs: the first run is run again, so a race that only a later one has is not replayed, and the list has the command that replays it.

const assert = require('node:assert');
const fs = require('node:fs');
const http = require('node:http');
const path = require('node:path');
const { after, before, test } = require('node:test');
const { run, temporaryFolder } = require('./cleanup.js');
const { listen } = require('./server.js');

const TOP = path.join(__dirname, '..', '..');
const folder = temporaryFolder('replay-runs-test');
const LONGEST = 280000;
const ALWAYS = `var price = 0;
setTimeout(function late() { price = 7; }, 60);
setTimeout(function soon() { document.getElementById('out').textContent = 'price ' + price; }, 20);`;
/** From the second request on: a race that comes first in the report. */
const LATER = `var count = 0;
setTimeout(function fill() { count = 1; }, 50);
setTimeout(function ask() { document.title = 'count ' + count; }, 10);
`;
let loads = 0;
const server = http.createServer(({ url }, response) => {
  if (url === '/page') response.writeHead(200, { 'content-type': 'text/html' }).end('<!doctype html><p id="out">nothing</p><script src="/app.js"></script>');
  else response.writeHead(200, { 'content-type': 'text/javascript' }).end(url === '/app.js' && loads++ ? LATER + ALWAYS : ALWAYS);
});
let origin = '';
before(async () => { origin = `http://127.0.0.1:${await listen(server)}`; });
after(() => {
  server.closeAllConnections();
  server.close();
});

test('a race of a later run keeps its own number, and the command that the list has replays it', { timeout: 2 * LONGEST + 10000 }, async () => {
  const { status, stdout, stderr } = await run(path.join(TOP, 'er_page'), [`${origin}/page`, '--runs', '2', '--replay'], { longest: LONGEST, cwd: folder });
  assert.strictEqual(status, 1, stderr);
  assert.match(stdout, /^Replayed 1 of 1 race: 1 differs\.$/m);
  const { races } = JSON.parse(fs.readFileSync(path.join(folder, 'page.races', 'page.replay.json'), 'utf8'));
  assert.deepStrictEqual(races.map((/** @type {{location: string}} */ { location }) => location), ['var 0 price']);
  const [own, later] = ['price', 'count'].map((name) => stdout.replace(/\n {8}/g, ' ').split('\n\n').find((entry) => entry.includes(`\`${name}\``)) || '');
  assert.match(own, /^ {4}replayed: in the other order the text is "price 7" instead of "price 0"$/m, stdout);
  const [, command = ''] = /^ {4}replayed: no \(run 1 does not have it; (.*) does it\)$/m.exec(later) || [];
  assert.match(command, /^\.\/er_replay page\.races\/runs\/2\.trace --race \d+$/, stdout);
  const [, ...words] = command.split(' ');
  const again = await run(path.join(TOP, 'er_replay'), words, { longest: LONGEST, cwd: folder });
  assert.strictEqual(again.status, 0, again.stderr);
  assert.match(again.stdout, /found again[^]*title: count 0 in the recorded order, count 1 in the other order/);
});
