'use strict';
// JUnit XML and SARIF against the schemas of schemas/: by xmllint and by ajv, where these are installed.

const assert = require('node:assert');
const fs = require('node:fs');
const path = require('node:path');
const { test } = require('node:test');
const { Known } = require('../list/known.js');
const { LoadsListing } = require('../list/loads-listing.js');
const { junitOf } = require('../list/loads-junit.js');
const { LoadRuns } = require('../list/loads-run.js');
const { Problems } = require('../list/problems.js');
const { sarifOf } = require('../list/sarif.js');
const { run, temporaryFolder } = require('./cleanup.js');
const { judgeText } = require('./list-support.js');

const EXAMPLES = path.join(__dirname, '..', '..', 'examples');
const SCHEMAS = path.join(__dirname, 'schemas');
const NODE_MODULES = '/usr/share/nodejs';
const hasLint = fs.existsSync('/usr/bin/xmllint');
const hasAjv = fs.existsSync(path.join(NODE_MODULES, 'ajv'));
const folder = temporaryFolder('schemas');
const ODD = 'a "b" <c> & \u0001 \u{1f600} %20 .js';
/** With places and odd names, and with nothing. */
const NAMES = { files: [{ address: `http://a/${encodeURI(ODD)}`, text: 'a\n' }], elements: {}, documents: {}, handlers: {}, timeouts: {}, intervals: {}, requests: {}, dispatches: {}, objects: {}, functions: {}, values: {} };

/** @param {string} name @param {boolean} hasPlaces */
async function problemsOf(name, hasPlaces) {
  const text = fs.readFileSync(path.join(EXAMPLES, `${name}.trace`), 'utf8');
  const places = hasPlaces ? Object.fromEntries(text.split('\n').map((_, k) => [k + 1, /** @type {[number, number, number]} */ ([0, 1 + (k % 7), 1])])) : {};
  return new Problems(text, { ...NAMES, places }, await judgeText(text));
}

/** Lists with and without places, known races, verdicts, and without a race. */
async function listings() {
  const loads = await Promise.all([problemsOf('page-jquery-ui-tabs-with-requests', true), problemsOf('page-codemirror-load-mode-on-demand', false), problemsOf('covered-by-a-flag', true)]);
  const none = await problemsOf('rule-1-parse-steps', true);
  const listOf = (/** @type {Problems[]} */ problems, /** @type {Known|null} */ known) => {
    const runs = new LoadRuns(false);
    return new LoadsListing(problems.map((one) => runs.add(one)), known, {}, problems.map((_, k) => `${k + 1}.html`));
  };
  const whole = listOf(loads, null);
  const known = listOf(loads, new Known(whole.problems.filter((_, k) => k % 2).map(({ name }) => name).join('\n'), 'races.known'));
  known.setVerdicts(0, [{ race: known.problems[0].first + 1, verdict: 'turned', effect: 'another state', words: 'turned: differs: <x>' }]);
  return { whole, known, none: listOf([none], null) };
}

test('JUnit XML', { skip: hasLint ? false : 'libxml2-utils is not installed' }, async () => {
  for (const [name, listing] of Object.entries(await listings())) {
    const file = path.join(folder, `${name}.xml`);
    fs.writeFileSync(file, junitOf(listing));
    const { status, stderr } = await run('xmllint', ['--noout', '--schema', path.join(SCHEMAS, 'junit.xsd'), file], { longest: 20000 });
    assert.strictEqual(status, 0, stderr);
  }
  const wrong = path.join(folder, 'wrong.xml');
  fs.writeFileSync(wrong, '<testsuites><testsuite name="x" tests="1"><testcase name="" classname="y"/></testsuite></testsuites>');
  assert.strictEqual((await run('xmllint', ['--noout', '--schema', path.join(SCHEMAS, 'junit.xsd'), wrong], { longest: 20000 })).status, 3, 'the schema refuses something');
});

/** Prints the faults of a file by a schema, as JSON. */
const CHECK = `const [schema, file] = process.argv.slice(1).map((name) => JSON.parse(require('fs').readFileSync(name, 'utf8')));
const isValid = new (require('ajv'))({ allErrors: true, format: 'full' }).compile(schema);
console.log(JSON.stringify(isValid(file) ? [] : isValid.errors));`;

/** @param {unknown} sarif */
async function faultsOf(sarif) {
  const file = path.join(folder, 'list.sarif');
  fs.writeFileSync(file, JSON.stringify(sarif));
  const env = { ...process.env, NODE_PATH: NODE_MODULES }; // where Debian's modules find each other
  const { stdout, stderr } = await run(process.execPath, ['-e', CHECK, path.join(SCHEMAS, 'sarif.json'), file], { env, longest: 20000 });
  assert.strictEqual(stderr, '');
  return JSON.parse(stdout);
}

test('SARIF', { skip: hasAjv ? false : 'node-ajv is not installed' }, async () => {
  for (const listing of Object.values(await listings())) {
    const sarif = sarifOf(listing, { page: 'http://a/', folder: null });
    assert.deepStrictEqual(await faultsOf(sarif), []);
    const [{ tool: { driver: { rules } }, results }] = sarif.runs;
    for (const { ruleId, ruleIndex } of results) assert.strictEqual(rules[ruleIndex].id, ruleId);
  }
  const wrong = { version: '2.1.0', runs: [{ tool: { driver: { name: 'x' } }, results: [{ message: { text: 'x' } }] }] };
  assert.ok((await faultsOf(wrong)).length > 0, 'the schema refuses something');
});
