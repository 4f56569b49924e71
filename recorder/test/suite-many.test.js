'use strict';
// er_suite over more page loads than one process analyzes: the list, the paths in the views, and a call that is stopped.

const assert = require('node:assert');
const fs = require('node:fs');
const path = require('node:path');
const { test } = require('node:test');
const { sleep } = require('../common/time.js');
const { run, start, temporaryFolder } = require('./cleanup.js');
const { writeLoad, PROBLEMS } = require('./made-load.js');

const SUITE = path.join(__dirname, '..', '..', 'er_suite');
const LIMIT = { timeout: 180000 };
const LONGEST = 150000;
const COUNT = 25;
const folder = temporaryFolder('suite-many');

/** @param {string} name @param {number} count */
function makeLoads(name, count) {
  const traces = path.join(folder, name);
  fs.mkdirSync(traces);
  for (let k = 0; k < count; k++) writeLoad(traces, k);
  return traces;
}

/** @param {string} file @returns {unknown[]} the links of a view */
const linksOf = (file) => JSON.parse(/"links":(\[.*?\]),"rules"/.exec(fs.readFileSync(file, 'utf8'))?.[1] || assert.fail(`no model in ${file}`));

test('each problem once, in the order of the loads; paths in the view of the first load that has it', LIMIT, async () => {
  const traces = makeLoads('many', COUNT);
  const { status, stdout, stderr } = await run(SUITE, [traces, '--json'], { longest: LONGEST });
  assert.strictEqual(status, 1, stderr);
  /** @type {{problems: {runs: number[], hasLine: boolean, names: unknown[]}[], files: string[]}} */
  const { problems, files } = JSON.parse(stdout);
  assert.deepStrictEqual(files, [...files].sort());
  const shared = problems.filter(({ runs }) => runs.length === COUNT);
  const own = problems.filter(({ runs }) => runs.length === 1);
  assert.deepStrictEqual([shared.length, own.length, problems.length], [PROBLEMS.shared, COUNT * PROBLEMS.own, PROBLEMS.shared + COUNT * PROBLEMS.own]);
  const counts = files.map((file) => linksOf(file.replace(/trace$/, 'html')).length);
  assert.ok(counts.every((count) => count > 0) && counts[0] > counts[COUNT - 1], counts.join(' '));
  const lines = await run(SUITE, [traces], { longest: LONGEST });
  assert.match(lines.stdout, new RegExp(`seen in ${COUNT} of ${COUNT} loads: load-0000.html`));
});

test('few loads: also paths from the start of the page', LIMIT, async () => {
  const traces = makeLoads('few', 1);
  await run(SUITE, [traces], { longest: LONGEST });
  const [few, many] = [traces, path.join(folder, 'many')].map((one) => linksOf(path.join(one, 'load-0000.html')).length);
  assert.ok(few > many, `${few} and ${many}`); // how many, the time that a view takes decides
});

test('a trace that is refused: the others are listed; a view that cannot be written', LIMIT, async () => {
  const traces = makeLoads('refused', COUNT);
  fs.writeFileSync(path.join(traces, 'load-0007.trace'), 'webtrace 3\nwrong\n');
  const refused = await run(SUITE, [traces], { longest: LONGEST });
  assert.strictEqual(refused.status, 3, refused.stderr);
  assert.match(refused.stderr, /the trace is refused at line 2/);
  assert.match(refused.stderr, /1 of 25 page loads could not be analyzed/);
  fs.rmSync(path.join(traces, 'load-0003.html'));
  fs.mkdirSync(path.join(traces, 'load-0003.html')); // no file can take its place
  const unwritten = await run(SUITE, [traces], { longest: LONGEST });
  assert.strictEqual(unwritten.status, 5, unwritten.stderr);
  assert.match(unwritten.stderr, /load-0003\.html.* cannot be written/);
});

/** Starts the list of many loads. Returns the command and the processes that analyze them. */
async function startMany() {
  const traces = path.join(folder, 'stopped');
  if (!fs.existsSync(traces)) makeLoads('stopped', 200);
  const command = start(SUITE, [traces]);
  const children = () => fs.readdirSync('/proc').filter((pid) => /^\d+$/.test(pid) && isJudgeOf(pid, Number(command.pid)));
  for (let k = 0; k < 300 && !children().length; k++) await sleep(50);
  const judges = children();
  assert.ok(judges.length > 0);
  return { command, judges };
}

test('a process that is killed', LIMIT, async () => {
  const { command, judges: [judge] } = await startMany();
  process.kill(Number(judge), 'SIGKILL');
  assert.strictEqual(await command.ended, 5, command.said);
  assert.match(command.said, /a process that analyzes page loads failed: it ended with SIGKILL/);
});

test('Ctrl-C ends all processes', LIMIT, async () => {
  const { command, judges } = await startMany();
  command.kill('SIGINT');
  assert.strictEqual(await command.ended, 130, command.said);
  for (let k = 0; k < 100 && judges.some((pid) => fs.existsSync(`/proc/${pid}`)); k++) await sleep(50);
  assert.deepStrictEqual(judges.filter((pid) => fs.existsSync(`/proc/${pid}`)), []);
});

/** @param {string} pid @param {number} parent */
function isJudgeOf(pid, parent) {
  try {
    const [, found] = /\) \w (\d+) /.exec(fs.readFileSync(`/proc/${pid}/stat`, 'utf8')) || [];
    return Number(found) === parent && fs.readFileSync(`/proc/${pid}/cmdline`, 'utf8').includes('load-judge.js');
  } catch {
    return false; // it has ended
  }
}
