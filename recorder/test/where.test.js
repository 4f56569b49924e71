'use strict';
// where.js and the map of README.md: questions in a newcomer's words lead to the file among the first lines.

const assert = require('node:assert');
const { execFileSync, spawnSync } = require('node:child_process');
const fs = require('node:fs');
const path = require('node:path');
const { test } = require('node:test');

const { linesFor } = require('../where.js');
const { readIndex, withPaths } = require('../where-index.js');
const { rank } = require('../where-rank.js');
const { asked: CORPUS } = readIndex();

const WHERE = path.join(__dirname, '..', 'where.js');
/** What a reader looks at, and what is printed at most. */
const FIRST = 4;
const PRINTED = 6;

/** @type {{[words: string]: string}} */
const QUESTIONS = {
  clear: 'clearing.js', CSP: 'content-policy.js', localStorage: 'fields.js', cookie: 'fields.js', fetch: 'requests.js', websocket: 'connections.js', iframe: 'frames.js',
  'local variable': 'look.js', eval: 'marks.js', 'recording end': 'rest.js', 'element name': 'element-words.js', redirect: 'page-steps.js',
  download: 'tab.js', 'log-in': 'signed-in.js', error: 'error-text.js', severity: 'rank.js', known: 'known.js', junit: 'loads-junit.js', 'exit status': 'status.js',
  'option default': 'options.js', POST: 'changing.js', clock: 'chance.js', 'source map': 'source-map.js', 'module import': 'imports.js', jquery: 'ready.js', popup: 'opened-window.js',
  clearTimeout: 'clearing.js', setInterval: 'timers.js', 'iframe merge': 'frames.js', 'frame log': 'frames.js', 'send node': 'main.js', binding: 'main.js', integrity: 'attributes.js',
  cancel: 'clearing.js', 'stand-in': 'queued.js', keyboard: 'keyboard.js', login: 'signed-in.js', proxy: 'kinds.js', callstack: 'stack.js', ajax: 'requests.js', chaos: 'chaos.js',
  'chaos network': 'chaos-network.js', 'disabled control': 'controls.js', baseline: 'known.js', screenshot: 'pictures.js', typescript: 'index-types.js',
  'settings page': 'settings.js', destructuring: 'shapes.js', 'timeout delay': 'timers.js', 'object number': 'object-names.js', password: 'secrets.js', video: 'media.js',
};

const INDEX = readIndex();
/** @param {string} words */
const answer = (words) => linesFor(words.split(' '), INDEX);

for (const [words, file] of Object.entries(QUESTIONS)) {
  test(`${words}: ${file}`, () => {
    const first = answer(words).filter((line) => !line.startsWith('  ')).slice(0, FIRST);
    assert.ok(first.some((line) => line.replace(/:.*/, '').endsWith(`/${file}`) || new RegExp(`(?<![\\w-])${file}`).test(line)), first.join('\n'));
  });
}

test('a question that was asked before leads to its file at once', () => {
  for (const { question, files } of CORPUS) {
    for (const file of files) assert.ok(fs.existsSync(path.join(__dirname, '..', file)), file);
    const [{ module: { name } }] = rank(question.split(' '), INDEX).modules;
    assert.ok(files.includes(name), `${question}: ${name}`);
  }
});

/** So many questions would lead to their file at once, or within three files, if they had not been asked before. */
const SHARE_FIRST = 0.74;
const SHARE_OF_THREE = 0.88;

test('questions as newcomers ask them lead to the file that has the answer, also if they are new', () => {
  const ranks = CORPUS.map(({ question, files }) => {
    const { modules } = rank(question.split(' '), INDEX, { without: question });
    return { question, at: modules.slice(0, PRINTED).findIndex(({ module: { name } }) => files.includes(name)) };
  });
  const missed = ranks.filter(({ at }) => at).map(({ question, at }) => `${at + 1 || '-'} ${question}`).join('\n');
  assert.ok(CORPUS.length >= 550);
  assert.ok(ranks.filter(({ at }) => at === 0).length >= SHARE_FIRST * CORPUS.length, missed);
  assert.ok(ranks.filter(({ at }) => at >= 0 && at < 3).length >= SHARE_OF_THREE * CORPUS.length, missed);
});

test('each part of a double question has its lines', () => {
  const lines = answer('Where is a redirect followed, and which encodings of scripts are decoded?');
  assert.ok(lines.some((line) => line.startsWith('recorder/browser/responses/page-steps.js')), lines.join('\n'));
  assert.ok(lines.some((line) => line.startsWith('recorder/browser/text.js')), lines.join('\n'));
});

/** Words that say nothing of a module. */
const OTHERS = 'also been come comes does each from have into itself more most only other others such than that their them then there they this what when where whether which with'.split(' ');
/** So many words of its first comment find a module. */
const WORDS = 4;

test('each module is found by the first words of its first comment', () => {
  const modules = INDEX.modules.filter(({ name }) => !/^test\/|^where|\.d\.ts$/.test(name));
  assert.ok(modules.length > 300);
  const index = { modules, rows: [], headings: [], asked: [] };
  for (const { name, parts: { about } } of modules) {
    const words = (about.toLowerCase().match(/[a-z]{4,}/g) || []).filter((word) => !OTHERS.includes(word)).slice(0, WORDS);
    assert.ok(words.length >= 2, `${name} has no first comment of two words`);
    const found = rank(words, index).modules.slice(0, PRINTED).map((one) => one.module.name);
    assert.ok(found.includes(name), `where.js ${words.join(' ')}: ${found.join(', ')}, without ${name}`);
  }
});

test('the map names no file that is not there', () => {
  const rows = fs.readFileSync(path.join(__dirname, '..', 'README.md'), 'utf8').split('\n').filter((line) => /^\| [^*]/.test(line));
  const named = rows.flatMap((row) => [...withPaths(row).matchAll(/`([\w./-]+\.(?:js|css|ts))`/g)].map(([, name]) => name));
  assert.ok(named.length > 250);
  for (const name of named) assert.ok(fs.existsSync(path.join(__dirname, '..', '..', name)), name);
});

test('a row has whole paths, and comes after the modules if it has only some of the words', () => {
  assert.match(answer('clearTimeout held dropped').join('\n'), / recorder\/page\/recording\/clearing\.js; awaited/);
  const lines = answer('iframe merge zzz');
  assert.strictEqual(lines[0], 'no file has: zzz');
  assert.ok(lines.some((line) => /^README\.md: .*recorder\/page\/frames\.js/.test(line)), lines.join('\n'));
});

test('a file of the map has the names that the map has of it', () => {
  const files = execFileSync('git', ['ls-files', '--', '*.js', '*.ts', 'driven/launch'], { cwd: path.join(__dirname, '..'), encoding: 'utf8' }).split('\n').filter((name) => !name.startsWith('test/'));
  const named = [...fs.readFileSync(path.join(__dirname, '..', 'README.md'), 'utf8').matchAll(/((?:`\w+`(?:, | and ))*`\w+`) in `(?:\.\/)?([\w./-]+)`/g)];
  assert.ok(named.length > 30);
  for (const [, names, file] of named) {
    const text = files.filter((name) => name === file || name.endsWith(`/${file}`)).map((name) => fs.readFileSync(path.join(__dirname, '..', name), 'utf8')).join('\n');
    for (const [, name] of names.matchAll(/`(\w+)`/g)) assert.match(text, new RegExp(`\\b${name}\\b`), `${name} in ${file}`);
  }
});

test('--help prints the usage, and no word is a wrong call', () => {
  for (const word of ['-h', '--help']) assert.match(execFileSync(process.execPath, [WHERE, word], { encoding: 'utf8' }), /^usage: recorder\/where\.js WORD\.\.\n\n/);
  const { status, stderr } = spawnSync(process.execPath, [WHERE], { encoding: 'utf8' });
  assert.strictEqual(status, 2);
  assert.match(stderr, /^usage: recorder\/where\.js WORD\.\.\n/);
});

test('a word that is only in code comes with its lines; words that are nowhere are named, also parts of names; documents', () => {
  assert.match(answer('isCheckpoint')[0], /^recorder\/[\w/.-]+(:\d+(,\d+)*)?: /);
  const nowhere = ['no', 'such', 'word'].join('');
  assert.deepStrictEqual(answer(nowhere), [`no file has: ${nowhere}`]);
  assert.strictEqual(execFileSync(process.execPath, [WHERE, nowhere], { encoding: 'utf8' }), `no file has: ${nowhere}\n`);
  assert.deepStrictEqual(answer(`settings ${nowhere} page`).slice(1), answer('settings page'));
  assert.match(answer('works beside driver').join('\n'), /^Documents:\ndocs\/suites\.md:\d+: /m);
});
