'use strict';
// The way back from the browser's lines and columns, which it counts as JavaScript does.

const assert = require('node:assert');
const vm = require('node:vm');
const { test } = require('node:test');
const { EditedText } = require('./edits.js');
const { instrument } = require('./instrument.js');

/**
 * The line of the error that marked code throws, in the code itself.
 * @param {string} code
 */
function lineOfError(code) {
  const { edits = [] } = instrument(code, { kind: 'script', depth: 'objects', builtins: new Set(), site: () => 0 });
  const edited = new EditedText(code, edits);
  try {
    vm.runInNewContext(edited.text, {}, 'marked.js');
  } catch (error) {
    const [, line, column] = /marked\.js:(\d+):(\d+)/.exec(String(/** @type {Error} */ (error).stack).replace(/^marked\.js:\d+$/m, '')) || [];
    return edited.originalPlace(Number(line), Number(column)).line;
  }
  throw new Error('the code throws nothing');
}

test('a file whose lines end with carriage returns', () => {
  assert.strictEqual(lineOfError('function a(){\r  return b.c\r}\rvar b;a()'), 2);
  assert.strictEqual(lineOfError('function a(){\r\n  return b.c\r\n}\r\nvar b;a()'), 2);
});

test('a separator of lines in a text', () => {
  assert.strictEqual(lineOfError('var s="\u2028", b;\nb.c()'), 2);
  assert.strictEqual(lineOfError('var s="\u2029\u2028", b;b.c()'), 1);
});

test('a page, in which a separator ends no line', () => {
  const page = '<p>\u2028</p>\n<script>b</script>';
  assert.deepStrictEqual(new EditedText(page, [], 'page').originalPlace(2, 9), { line: 2, column: 9 });
});

test('where an original place is in the changed text: in what is inserted there too', () => {
  const edited = new EditedText('a;\nb(c);d', [{ start: 3, end: 3, insert: 'mark(' }, { start: 7, end: 7, insert: ')' }, { start: 8, end: 9, insert: 'dd' }]);
  assert.strictEqual(edited.text, 'a;\nmark(b(c));dd');
  for (const [column, from, to] of [[1, 1, 6], [2, 7, 7], [5, 10, 11], [6, 12, 12]]) {
    assert.deepStrictEqual(edited.changedPlaces(2, column), { line: 2, from, to }, String(column));
    for (let k = from; k <= to; k++) assert.deepStrictEqual(edited.originalPlace(2, k), { line: 2, column }, String(k));
  }
});
