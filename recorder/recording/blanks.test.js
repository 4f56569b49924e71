'use strict';
// Code without blanks is the same code, in one line.

const assert = require('node:assert');
const fs = require('node:fs');
const path = require('node:path');
const { test } = require('node:test');
const { parse, tokenizer } = require('/usr/share/nodejs/acorn');
const { withoutBlanks } = require('./blanks.js');
const { pageScript } = require('./page-script.js');

const PAGE = path.join(__dirname, '..', 'page');

/** @param {string} code */
const tokensOf = (code) => [...tokenizer(code, { ecmaVersion: 'latest', sourceType: 'module' })].map(({ type, start, end }) => `${type.label} ${code.slice(start, end)}`);

/**
 * The tree of code, without places.
 * @param {string} code
 */
const treeOf = (code) => JSON.stringify(parse(code, { ecmaVersion: 'latest', sourceType: 'module' }), (key, value) => (key === 'start' || key === 'end' ? undefined : value));

test('the modules of page/ are the same without blanks', () => {
  const files = fs.readdirSync(PAGE, { recursive: true, encoding: 'utf8' }).filter((name) => name.endsWith('.js'));
  assert.ok(files.length > 50);
  for (const name of files) {
    const text = fs.readFileSync(path.join(PAGE, name), 'utf8');
    const short = withoutBlanks(text);
    assert.deepStrictEqual(tokensOf(short), tokensOf(text), name);
    assert.strictEqual(treeOf(short), treeOf(text), name); // a line break can be a token
    assert.doesNotMatch(short, /\n/, name);
  }
});

/** @type {[code: string, short: string][]} */
const FORMS = [
  ['const a = 1; // one\n\n/** two */\nlet b;\n', 'const a=1;let b;'],
  ["f('a  b', \"c  // d\", `e  ${f  +  `g  h`}  i`);", "f('a  b',\"c  // d\",`e  ${f  +  `g  h`}  i`);"],
  ["f('it\\'s  so', '//', /[/ ']  \\/ +/g, a / b / c);", "f('it\\'s  so','//',/[/ ']  \\/ +/g,a/b/c);"],
  ['a + +b - -c + ++d; a++ + b;', 'a+ +b- -c+ ++d;a++ +b;'],
  ['if (#a in b) return /x  y/; else throw new Error();', 'if(#a in b)return/x  y/;else throw new Error();'],
];
for (const [code, short] of FORMS) test(`without blanks: ${code}`, () => assert.strictEqual(withoutBlanks(code), short));

test('the script has two lines for each module, and a few others', () => {
  const script = pageScript([], { depth: 'objects' });
  const modules = script.match(/^const module\d+ = /gm) || [];
  assert.ok(script.split('\n').length < 2 * modules.length + 20, `${script.split('\n').length} lines`);
});
