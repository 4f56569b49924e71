'use strict';
// TypeScript's declarations of the interface for programs: that they are made of three files, name each documented member, and what compiles with them.

const assert = require('node:assert');
const fs = require('node:fs');
const path = require('node:path');
const { test } = require('node:test');
const { TABLES } = require('../recording/options.js');
const { listArguments, recordArguments, replayArguments } = require('../index-options.js');
const { run, temporaryFolder } = require('./cleanup.js');

const TOP = path.join(__dirname, '..', '..');
const LIMIT = { timeout: 120000 };
const folder = temporaryFolder('declarations');
const hasCompiler = fs.existsSync('/usr/bin/tsc');
const SKIP = hasCompiler ? false : 'node-typescript is not installed';
/** Nothing of the machine's own types: the declarations stand alone. */
const COMPILED = { compilerOptions: { strict: true, noEmit: true, target: 'es2022', module: 'commonjs', moduleResolution: 'node', lib: ['es2022', 'dom'], types: [] } };
/** What a caller does with each function; each line compiles. */
const USES = [
  "const recording = await record('index.html', { trace: 'a.trace', actions: ['click:#add'], headers: { accept: 'x' }, signal: new AbortController().signal });",
  "const numbers: (number|null)[] = [recording.actions, recording.loadTime];",
  "const why: 'NO_PAGE'|'NOT_DONE'|null = recording.isComplete ? null : recording.why;",
  "const lines: string[] = [...recording.errors, ...recording.lost, recording.names, recording.page];",
  "const attached = await attach('127.0.0.1:9222', { trace: 'b.trace', time: 10 });",
  'const format: 1 = (await judge(attached.trace)).format;',
  "const { problems, isFailing, views, notSeen } = await list(['traces'], { known: 'races.known', writesKnown: true, sarif: 'a.sarif', junit: 'a.xml', html: 'out' });",
  'const places: (string|undefined)[] = problems.flatMap(({ races }) => races.flatMap((race) => race.places.map((place) => place?.file)));',
  'const ranks: number[] = problems.map(({ rank }) => rank.number);',
  'const names: string[] = [...problems.map(({ name, words, summary, fix, look, part }) => name + words + summary + fix + look + part), ...notSeen.map(({ name }) => name), ...views];',
  "const reversal = await replay(recording.trace, problems[0].name, { command: 'npm test', time: 60 });",
  'const verdict: [string|null, string|null, boolean, number|undefined] = [reversal.verdict, reversal.effect, reversal.isFound, reversal.suiteStatus];',
  "try { await replay(recording.trace, 1, { mayChange: true }); } catch (fault) { if (fault instanceof EventRacerError && fault.code === 'REFUSED') console.log(fault.message); }",
  'export const all = { numbers, why, lines, format, isFailing, places, ranks, names, verdict };',
];
const WRONG = [
  "await record('index.html', { trace: 'a.trace', what: 1 });",
  "await record('index.html', {});",
  "const none = (await judge('a.trace')).problems[0].nothing;",
  "const text: string = (await judge('a.trace')).format;",
  "new EventRacerError('OTHER', 'x');",
];

/**
 * What TypeScript says of a program that uses the interface.
 * @param {string[]} lines
 */
async function compile(lines) {
  const text = ["import { record, attach, judge, list, replay, EventRacerError } from './index';", 'export async function use() {', ...lines.map((line) => line.replace(/^export /, '')), '}', ''];
  fs.writeFileSync(path.join(folder, 'user.ts'), text.join('\n'));
  fs.writeFileSync(path.join(folder, 'tsconfig.json'), JSON.stringify({ ...COMPILED, files: ['user.ts'] }));
  return run('tsc', ['-p', folder], { longest: 60000 });
}

test('the declarations are three files without an import of others', { ...LIMIT, skip: SKIP }, async () => {
  const { status, stdout, stderr } = await run(path.join(TOP, 'tools', 'declarations'), [folder], { longest: 60000 });
  assert.strictEqual(status, 0, stdout + stderr);
  assert.deepStrictEqual(fs.readdirSync(folder).sort(), ['index-options.d.ts', 'index-types.d.ts', 'index.d.ts']);
  const index = fs.readFileSync(path.join(folder, 'index.d.ts'), 'utf8');
  for (const name of ['record', 'attach', 'judge', 'list', 'replay']) assert.match(index, new RegExp(`^export function ${name}\\(`, 'm'));
});

test('they name each member that docs/suites.md names', { ...LIMIT, skip: SKIP }, () => {
  const declared = fs.readdirSync(folder).filter((name) => name.endsWith('.d.ts')).map((name) => fs.readFileSync(path.join(folder, name), 'utf8')).join('\n');
  const [, table] = /^\| Function \| Returns \|\n([^]*?)\n\n/m.exec(fs.readFileSync(path.join(TOP, 'docs', 'suites.md'), 'utf8')) || [];
  const named = [...table.matchAll(/`(\w+)`/g)].map(([, name]) => name).filter((name) => !/^er_/.test(name));
  assert.ok(named.length > 30, named.join(' '));
  assert.deepStrictEqual(named.filter((name) => !new RegExp(`\\b${name}\\??:`).test(declared)), []);
});

test('a program that uses each function compiles, and one with a wrong member does not', { ...LIMIT, skip: SKIP }, async () => {
  const { stdout } = await compile(USES);
  assert.strictEqual(stdout, '');
  const wrong = await compile(WRONG);
  const lines = [...wrong.stdout.matchAll(/^\S*user\.ts\((\d+),/gm)].map(([, line]) => Number(line) - 2);
  assert.deepStrictEqual(lines, WRONG.map((_, k) => k + 1), wrong.stdout);
});

/** Options of a command that the interface has in another form, or that print. */
const OTHERS = {
  er_record: ['do', 'header', 'http-credentials', 'cookie', 'attach', 'format', 'version', 'raw', 'chaos'],
  er_suite: ['json', 'color', 'replay-with', 'replay', 'time'],
  er_replay: ['race', 'header', 'http-credentials', 'cookie'],
};

test('each option of the commands is a member', () => {
  const value = 'x';
  const given = {
    er_record: recordArguments({
      trace: 'a.trace', flow: value, keepGoing: true, clicks: 1, seed: 1, avoid: value, slow: 1, time: 1, root: value, fallback: value, storageState: value,
      userDataDir: value, redact: value, viewport: value, userAgent: value, ignoreCertificateErrors: true, depth: 'globals', libraries: value, keep: true,
    }),
    er_suite: listArguments({ known: value, writesKnown: true, countsActs: true, sarif: value, junit: value, html: value }),
    er_replay: replayArguments({ mayChange: true, live: true, storageState: value, userDataDir: value, ignoreCertificateErrors: true, redact: value, viewport: value, userAgent: value, time: 1 }),
  };
  for (const command of /** @type {(keyof typeof given)[]} */ (Object.keys(given))) {
    const own = [...given[command].map((word) => word.replace(/^--|=.*$/g, '')), ...OTHERS[command]];
    assert.deepStrictEqual(own.sort(), Object.keys(TABLES[command]).sort(), command);
  }
  assert.deepStrictEqual(replayArguments({ command: 'npm test', cookies: { a: 'b' }, credentials: { user: 'u', password: 'p' } }), ['--replay-with=npm test', '--http-credentials=u:p', '--cookie=a=b']);
  assert.throws(() => listArguments(/** @type {any} */ ({ what: 1 })), /unknown option: what/);
});
