'use strict';
// The interface for programs: a page recorded, listed with a file of known races and replayed; a call that is aborted; errors with codes.

const assert = require('node:assert');
const fs = require('node:fs');
const path = require('node:path');
const { test } = require('node:test');
const { record, attach, judge, list, replay, EventRacerError } = require('../index.js');
const { run, temporaryFolder } = require('./cleanup.js');

const PAGES = path.join(__dirname, 'pages');
const SHOP = path.join(__dirname, '..', '..', 'examples', 'shop', 'index.html');
const LIMIT = { timeout: 180000 };
const folder = temporaryFolder('index-test');
const trace = path.join(folder, 'shop.trace');

/**
 * A call that fails with a code.
 * @param {Promise<unknown>} promise @param {string} code @param {RegExp} [message]
 */
const fails = (promise, code, message = /./) => assert.rejects(promise, (fault) => {
  assert.ok(fault instanceof EventRacerError, String(fault));
  assert.strictEqual(fault.code, code, fault.message);
  assert.match(fault.message, message);
  return true;
});

test('a page is recorded, judged and listed with known races', LIMIT, async () => {
  const recording = await record(SHOP, { trace });
  assert.deepStrictEqual([recording.format, recording.isComplete, recording.why, recording.trace], [1, true, null, trace]);
  assert.ok(recording.actions > 3 && fs.existsSync(recording.names));
  const { problems, isFailing, views, format } = await judge(trace);
  assert.deepStrictEqual([format, isFailing], [1, true]);
  assert.ok(fs.existsSync(views[0]) && problems.every(({ name, words }) => /^[0-9a-f]{12}$/.test(name) && words));
  const known = path.join(folder, 'races.known');
  fs.writeFileSync(known, problems.map(({ name }) => `${name}\n`).join(''));
  const again = await list([trace, trace], { known });
  assert.ok(!again.isFailing && again.problems.every(({ isKnown, runs }) => isKnown && runs.length === 2));
});

test('a problem of it is replayed by its stable name', LIMIT, async () => {
  const { problems } = await judge(trace);
  const reversal = await replay(trace, problems[0].name);
  assert.ok(reversal.isFound && reversal.verdict && reversal.words, JSON.stringify(reversal));
});

test('a call that is aborted ends its browser', LIMIT, async () => {
  const controller = new AbortController();
  const aborted = path.join(folder, 'aborted.trace');
  setTimeout(() => controller.abort(new Error('enough')), 3000);
  const recording = record(path.join(PAGES, 'timer.html'), { trace: aborted, actions: ['wait:60000'], time: 100, signal: controller.signal });
  await assert.rejects(recording, (fault) => fault instanceof EventRacerError && fault.code === 'ABORTED' && /** @type {Error} */ (fault.cause).message === 'enough');
  assert.ok(fs.existsSync(aborted), 'it ended itself: what came until then is written');
  await fails(judge(trace, { signal: controller.signal }), 'ABORTED');
});

test('errors have codes', LIMIT, async () => {
  const none = path.join(folder, 'none.trace');
  await fails(record('none.html', { trace: none }), 'NO_PAGE', /^none\.html did not load: there is no such file$/);
  await fails(record(SHOP, { trace: 'x' }), 'USAGE', /trace/);
  // @ts-expect-error: a member that the types do not allow
  await fails(record(SHOP, { trace: none, what: 1 }), 'USAGE', /unknown option: what/);
  await fails(record(SHOP, { trace: none, time: -1 }), 'USAGE', /--time/);
  await fails(record(SHOP, { trace: '/nowhere/x.trace' }), 'FAILED', /cannot be written/);
  await fails(attach('example.com:1', { trace: none }), 'USAGE', /--attach/);
  await fails(judge(path.join(folder, 'lacking.trace')), 'NO_PAGE');
  await fails(list([]), 'USAGE');
  fs.writeFileSync(none, 'webtrace 3\nwrong\n');
  await fails(judge(none), 'REFUSED', /none\.trace: the trace is refused at line 2/);
});

test('the example for node --test', LIMIT, async () => {
  fs.symlinkSync(path.join(__dirname, '..'), path.join(folder, 'eventracer'));
  const example = path.join(__dirname, '..', '..', 'examples', 'programs', 'races.test.js');
  /** @type {NodeJS.ProcessEnv} */
  const env = { ...process.env, NODE_PATH: folder };
  delete env.NODE_TEST_CONTEXT; // it would report to this test's runner
  const fresh = await run(process.execPath, ['--test', example], { env, longest: 150000 });
  assert.strictEqual(fresh.status, 1, fresh.stdout);
  assert.match(fresh.stdout, /nothing orders them/);
  const known = { ...env, RACES_KNOWN: path.join(folder, 'races.known') };
  const passed = await run(process.execPath, ['--test', example], { env: known, longest: 150000 });
  assert.strictEqual(passed.status, 0, passed.stdout);
});
