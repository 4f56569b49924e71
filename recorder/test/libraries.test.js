'use strict';
// The scripts of packaged libraries: each can be marked, is JavaScript then too, and comes back byte by byte. A library that is not installed
// is left out. No browser.

const assert = require('node:assert');
const fs = require('node:fs');
const path = require('node:path');
const { test } = require('node:test');
const acorn = require('/usr/share/nodejs/acorn');
const { EditedText } = require('../instrument/edits.js');
const { instrument } = require('../instrument/instrument.js');
const { withoutMarks } = require('../instrument/marks/delimiters.js');

/** Their packages, and where these have their scripts. */
const LIBRARIES = {
  'libjs-jquery': '/usr/share/javascript/jquery',
  'libjs-jquery-ui': '/usr/share/javascript/jquery-ui',
  'libjs-underscore': '/usr/share/javascript/underscore',
  'libjs-backbone': '/usr/share/javascript/backbone',
  'libjs-d3': '/usr/share/javascript/d3',
  'libjs-codemirror': '/usr/share/javascript/codemirror/lib',
  'libjs-leaflet': '/usr/share/javascript/leaflet',
  'libjs-prototype': '/usr/share/javascript/prototype',
  'node-react': '/usr/share/nodejs/react',
  'node-react-dom': '/usr/share/nodejs/react-dom',
  'node-acorn': '/usr/share/nodejs/acorn',
  'libjs-bootstrap4': '/usr/share/javascript/bootstrap4',
};
/** Of each library its longest scripts, but no very long one. */
const MOST = 5;
const LONGEST = 1500000;
/** @type {Pick<import('../instrument/syntax/types').Options, 'depth'|'keepsAll'>[]} */
const WAYS = [{ depth: 'globals' }, { depth: 'objects' }, { depth: 'objects', keepsAll: true }];

/**
 * @param {string} folder
 * @returns {string[]}
 */
function scriptsOf(folder) {
  if (!fs.existsSync(folder)) return [];
  return fs.readdirSync(folder, { withFileTypes: true }).flatMap((entry) => {
    const file = path.join(folder, entry.name);
    if (entry.isDirectory()) return scriptsOf(file);
    return /\.m?js$/.test(entry.name) && fs.existsSync(file) && fs.statSync(file).size < LONGEST ? [fs.realpathSync(file)] : [];
  });
}

/**
 * Marks a text as a script, or as a module if it is none; null if it is no JavaScript at all.
 * @param {string} code
 * @param {typeof WAYS[number]} way
 */
function mark(code, way) {
  for (const kind of /** @type {const} */ (['script', 'module'])) {
    const { edits, fault } = instrument(code, { kind, builtins: new Set(['window', 'document']), site: () => 0, module: 2000000, ...way });
    if (!fault) return { kind, edited: new EditedText(code, edits) };
  }
  return null;
}

for (const [library, folder] of Object.entries(LIBRARIES)) {
  const scripts = [...new Set(scriptsOf(folder))].sort((a, b) => fs.statSync(b).size - fs.statSync(a).size).slice(0, MOST);
  test(`${library}: ${scripts.length} scripts`, { skip: scripts.length === 0 && 'not installed' }, () => {
    for (const file of scripts) {
      const code = fs.readFileSync(file, 'utf8');
      for (const way of WAYS) {
        const marked = mark(code, way);
        assert.ok(marked, file);
        assert.ok(withoutMarks(marked.edited.text) === code, `${file} comes back`);
        acorn.parse(marked.edited.text, { ecmaVersion: 'latest', sourceType: marked.kind, allowHashBang: true });
      }
    }
  });
}
