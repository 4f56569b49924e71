'use strict';
// A page that works against the recorder, in a browser: it looks for the log, breaks what JavaScript has, sends commands for a terminal, and asks for
// files and servers that are not its own (pages/hostile/page.html).

const assert = require('node:assert');
const { execFileSync, spawnSync } = require('node:child_process');
const fs = require('node:fs');
const http = require('node:http');
const path = require('node:path');
const { after, before, test } = require('node:test');
const { PROGRAM } = require('../races/program.js');
const { run, temporaryFolder } = require('./cleanup.js');

const TOP = path.join(__dirname, '..', '..');
const LONGEST_RUN = 120000;
const folder = temporaryFolder('hostile');
const site = path.join(folder, 'site');
const SECRET = 'kept apart 7391';

/** @type {string[]} */
const asked = [];
const server = http.createServer((request, response) => {
  asked.push(`${request.method} ${request.url}`);
  response.end('{}');
});

before(async () => {
  await new Promise((resolve) => { server.listen(0, '127.0.0.1', () => resolve(undefined)); });
  const { port } = /** @type {import('node:net').AddressInfo} */ (server.address());
  fs.mkdirSync(path.join(site, '.ssh'), { recursive: true });
  fs.mkdirSync(path.join(folder, 'other'));
  fs.copyFileSync(path.join(__dirname, 'pages', 'hostile', 'page.html'), path.join(site, 'page.html'));
  fs.writeFileSync(path.join(site, 'map.js'), `window.fromMap = function fromMap() { window.mapped = 1; };\nsetTimeout(window.fromMap, 10);\n//# sourceMappingURL=http://127.0.0.1:${port}/delete?all=1\n`);
  for (const name of ['site/.ssh/id_rsa', 'site/.env', 'other/id_rsa']) fs.writeFileSync(path.join(folder, name), SECRET);
  fs.symlinkSync('/etc/passwd', path.join(site, 'link.txt'));
  fs.symlinkSync(path.join(folder, 'other'), path.join(site, 'out'));
  execFileSync('mkfifo', [path.join(site, 'fifo')]);
});
after(() => server.close());

/**
 * The lines of a text that have a character which a terminal takes for a command.
 * @param {string} text
 */
const linesWithCommands = (text) => text.split('\n').filter((line) => /[\0-\u0008\u000b-\u001f\u007f-\u009f\u202a-\u202e\u2066-\u2069]/.test(line)).map((line) => JSON.stringify(line.slice(0, 200)));

test('a hostile page is recorded as any other, and gets and gives nothing', { timeout: 150000 }, async () => {
  const out = path.join(folder, 'page.races');
  const { status, stdout, stderr } = await run(path.join(TOP, 'er_page'), [path.join(site, 'page.html'), '--keep', '--no-replay'], { cwd: folder, longest: LONGEST_RUN });
  assert.ok(status === 0 || status === 1, `status ${status}: ${stdout}\n${stderr}`);
  assert.doesNotMatch(stdout + stderr, /OWNED|kept apart|root:x:0/);
  assert.deepStrictEqual(asked, [], 'requests to a server of another origin');
  assert.deepStrictEqual([...linesWithCommands(stdout), ...linesWithCommands(stderr)], []);
  const files = fs.readdirSync(out);
  assert.deepStrictEqual(files.filter((name) => /page\.(trace|names\.json|report|html)$/.test(name)).length, 4, files.join(' '));
  for (const name of files) {
    const text = fs.readFileSync(path.join(out, name), 'utf8');
    assert.deepStrictEqual(linesWithCommands(text), [], name);
    assert.doesNotMatch(text, /kept apart|root:x:0/, name);
  }
  const trace = fs.readFileSync(path.join(out, 'page.trace'), 'utf8');
  assert.doesNotMatch(trace, /forged/);
  assert.match(spawnSync(PROGRAM, ['check'], { input: trace, encoding: 'utf8' }).stdout, /^(?!refused)./);
  // what the page put in the place of functions and iterators did not run, no line was its own, and what came after that is recorded
  assert.doesNotMatch(stderr, /replaced|no recorder writes|no line has/);
  assert.match(trace, /^w var 0 afterwards$/m);
});
