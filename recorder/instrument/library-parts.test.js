'use strict';
// Libraries in a file with other code, and what looks like one.

const assert = require('node:assert');
const fs = require('node:fs');
const { test } = require('node:test');
const { libraryParts } = require('./syntax/library-parts.js');
const { parse } = require('./syntax/parse.js');

/** @param {string} code @returns {[name: string, text: string][]} */
const partsOf = (code) => libraryParts(code, parse(code, 'script')).map(({ name, start, end }) => [name, code.slice(start, end)]);

const JQUERY = 'function(w,n){var e="3.6.1",C=function(s){return new C.fn.init(s)};C.fn=C.prototype={jquery:e,constructor:C};return w.jQuery=w.$=C,C}';
const COMMENTED = 'function( window ) {\n  jQuery.fn = jQuery.prototype = {\n\n    // The current version: {"a"}\n    /* of jQuery */ jquery: version\n  };\n  var own = 1;\n  return jQuery;\n}';

test('jQuery in a file with other code, as a server puts modules into one', () => {
  for (const made of [JQUERY, COMMENTED]) {
    assert.deepStrictEqual(partsOf(`var before=1;mw.implement("jquery",${made});mw.implement("site",function(){after=1});`), [['jquery.js', made]]);
  }
});

test('what looks like jQuery', () => {
  const ofApp = 'function(w){C.fn=C.prototype={jquery:e};function app(){own=1}app();start()}';
  for (const code of [`(${ofApp})(window)`, 'f.fn=g.prototype={jquery:1}', '(function(){C.fn=C.prototype={constructor:C,query:1};return C})()', 'var text=".fn=C.prototype={jquery:1}";',
    'C.fn=C.prototype={jquery:1};window.jQuery=C']) {
    assert.deepStrictEqual(partsOf(code), [], code);
  }
});

test('the statement after a comment that has the name and the version of a library', () => {
  const statement = '!function(f){f(jQuery)}(function($){$.ui={}});';
  for (const banner of ['/*! jQuery UI - v1.13.2 - 2022 */', '/*!\n * jQuery UI v1.13\n */\n/* more */ ;', '/*! Bootstrap 3.4 */ // it', '/*! jQuery Migrate version 3.3 */']) {
    const [[name, text], ...others] = partsOf(`own=1;\n${banner}\n${statement}own=2;`);
    assert.match(name, /^(?:jQuery-UI|Bootstrap|jQuery-Migrate)\.js$/);
    assert.deepStrictEqual([text, others], [statement, []]);
  }
  for (const banner of ['/*! My App v1.0 */', '/*! jQuery is needed here */', '/* jQuery UI v1.13 */', 'text="/*! jQuery v3.6 */"+']) {
    assert.deepStrictEqual(partsOf(`own=1;${banner}\n${statement}`), [], banner);
  }
});

test('no part is inside another one', () => {
  assert.deepStrictEqual(partsOf(`/*! jQuery v3.6.1 | (c) OpenJS */\n!function(t){t(window)}(${JQUERY});own=1;`).map(([name]) => name), ['jQuery.js']);
});

const FILE = '/usr/share/javascript/jquery/jquery.min.js';
test("jQuery of Debian's package", { skip: fs.existsSync(FILE) ? false : 'libjs-jquery is not installed' }, () => {
  const text = fs.readFileSync(FILE, 'utf8').replace(/^\/\*.*\*\/\n/, '');
  const [[name, part], ...others] = partsOf(`own=1;${text}`);
  assert.deepStrictEqual([name, others, part.length > text.length * 0.9], ['jquery.js', [], true]);
});

test('a long text takes no longer by its signs', () => {
  const signs = ['.fn = ', '/*!', '/*! a ', 'a'].map((sign) => `x=\`${sign.repeat(200000 / sign.length)}\`;`).join('\n');
  assert.deepStrictEqual(partsOf(signs), []);
});
