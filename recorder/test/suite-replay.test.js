'use strict';
// er_suite --replay-with: a suite that fails when a race comes in the other order, and commands that cannot be used.

const assert = require('node:assert');
const fs = require('node:fs');
const path = require('node:path');
const { after, before, test } = require('node:test');
const { sleep } = require('../common/time.js');
const { waitForWriters } = require('../driven/trace-folder.js');
const { run, start, temporaryFolder } = require('./cleanup.js');
const { serveSuite } = require('./suite-server.js');

const TOP = path.join(__dirname, '..', '..');
const SUITE = path.join(TOP, 'er_suite');
const LIMIT = { timeout: 400000 };
const LONGEST = 380000;
const folder = temporaryFolder('suite-replay');
const traces = path.join(folder, 'traces');
const env = { ...process.env, TMPDIR: folder };
const driver = path.join(__dirname, 'drivers', 'order_suite.js');
/** @type {string} */
let command;
/** @type {Awaited<ReturnType<typeof serveSuite>>[]} */
const servers = [];
before(async () => {
  servers.push(await serveSuite(), await serveSuite());
  const { status, stderr } = await run(process.execPath, [driver, path.join(TOP, 'er_browser'), servers[0].origin], { env: { ...env, ER_TRACES: traces }, longest: LONGEST });
  assert.strictEqual(status, 0, stderr);
  assert.ok(await waitForWriters(traces, 30000));
  command = `${process.execPath} ${driver} ${path.join(TOP, 'er_browser')} ${servers[1].origin}`; // a server at another port
});
after(() => servers.forEach((server) => server.close()));

/** @param {string[]} words */
const suite = (...words) => run(SUITE, [traces, '--color', 'never', ...words], { env, longest: LONGEST });

/** @typedef {{name: string, verdict: string, effect?: string, suiteStatus?: number, means?: string, why?: string, words: string, folder: string}} Outcome */
/** @returns {{free: {status: number}, problems: Outcome[]}} */
const replays = () => JSON.parse(fs.readFileSync(path.join(traces, 'replays', 'replays.json'), 'utf8'));

test('a suite fails when a race comes in the other order: a wait of the parser, a timeout of a script', LIMIT, async () => {
  const { status, stdout, stderr } = await suite('--replay-with', command, '--json');
  assert.strictEqual(status, 1, stderr);
  const { free, problems } = replays();
  assert.strictEqual(free.status, 0, stderr);
  assert.deepStrictEqual(problems.map(({ verdict, effect, suiteStatus }) => [verdict, effect, suiteStatus]), [['turned', 'a failing test', 1], ['turned', 'a failing test', 1]], stderr);
  assert.deepStrictEqual(problems.map(({ means = '' }) => means.replace(/ order.*| script.*/, '')).sort(), ['the parser waits before the', 'the timeout quick set at'], stderr);
  assert.match(stderr, /turned: differs: the suite's status: 0 in the recorded order, 1 in the other order/);
  assert.match(fs.readFileSync(path.join(traces, problems[0].folder, 'output.txt'), 'utf8'), /AssertionError/);
  /** @type {{problems: {name: string, replay?: {differs: boolean}}[]}} */
  const list = JSON.parse(stdout);
  assert.deepStrictEqual(list.problems.filter(({ replay }) => replay?.differs).map(({ name }) => name).sort(), problems.map(({ name }) => name).sort());
});

test('a suite that fails by itself, and a page that comes no more', LIMIT, async () => {
  const once = path.join(folder, 'once');
  const { stderr } = await suite('--replay-with', `if [ -e ${once} ]; then exit 3; fi; touch ${once}; ${command}; exit 3`, '--replay', '1');
  assert.match(stderr, /the suite fails by itself \(status 3\)/);
  const [{ verdict, why }] = replays().problems;
  assert.strictEqual(verdict, 'not turned');
  assert.match(String(why), /the suite did not load http:.*\/order$/);
});

test('commands that cannot be used, and problems that are not in the list', LIMIT, async () => {
  const lacking = await suite('--replay-with', 'no-such-command-here');
  assert.strictEqual(lacking.status, 2, lacking.stderr);
  assert.match(lacking.stderr, /the command cannot be run; .*not found/);
  const without = await suite('--replay-with', 'echo no page here');
  assert.strictEqual(without.status, 4, without.stderr);
  assert.match(without.stderr, /loaded no page in er_browser.*no page here/);
  const long = await suite('--replay-with', 'sleep 100', '--time', '1');
  assert.strictEqual(long.status, 4, long.stderr);
  assert.match(long.stderr, /the suite took longer than 1 s/);
  assert.strictEqual((await suite('--replay-with', command, '--replay', '99')).status, 2);
  assert.strictEqual((await suite('--replay-with', command, '--replay', 'x')).status, 2);
  assert.strictEqual((await suite('--replay', '1')).status, 2);
});

test('Ctrl-C ends the suite and its browser, and the list is printed', LIMIT, async () => {
  const mark = path.join(folder, 'started');
  const child = start(SUITE, [traces, '--replay-with', `touch ${mark}; ${command}; sleep 100`], { env });
  for (let k = 0; k < 600 && !fs.existsSync(mark); k++) await sleep(100);
  await sleep(500);
  child.kill('SIGINT');
  assert.strictEqual(await child.ended, 130, child.said);
  assert.match(child.output, /2 problems/);
  const left = () => fs.readdirSync('/proc').filter((pid) => /^\d+$/.test(pid) && isOf(pid, `ER_TRACES=${path.join(traces, 'replays')}`));
  for (let k = 0; k < 100 && left().length; k++) await sleep(100); // the processes of a browser end some time after the command
  assert.deepStrictEqual(left(), []);
});

/** @param {string} pid @param {string} text of its environment */
function isOf(pid, text) {
  try {
    return fs.readFileSync(`/proc/${pid}/environ`, 'utf8').includes(text);
  } catch {
    return false; // it has ended
  }
}
