'use strict';
// The groups of functions that a load under the recorder spends its time in: in the page (by the module of page/), and in the recorder's own process.

/** @typedef {import('./sampled.js').CallFrame} CallFrame */

const MODULE = /^const module\d+ = \(\(\) => \{ \/\/ (.*)$/;

/** What a folder or module of page/ does. The first that fits counts. */
const PARTS = /** @type {[RegExp, string][]} */ ([
  [/^helpers\//, 'helpers'],
  [/^objects\//, 'objects and their variables'],
  [/^accesses\//, 'accesses by name'],
  [/^document\//, 'elements and what a user can reach'],
  [/^events\//, 'events'],
  [/^log\//, 'the log'],
  [/^recording\//, 'actions'],
  [/^(?:tasks|scripts)\//, 'tasks and scripts'],
  [/./, 'core and start'],
]);

const IDLE = new Set(['(idle)', '(root)']);

/**
 * The modules of the page's script by line: a line is of the last module that begins before it.
 * @param {string} script
 */
function modulesOf(script) {
  return script.split('\n').flatMap((text, line) => {
    const [, file] = MODULE.exec(text) || [];
    return file ? [{ line, file }] : [];
  });
}

/**
 * The groups of a page's profile. What the browser does for a function (`(program)`, natives) counts to the function.
 * @param {string} script that of the recorder
 * @param {string} scriptName its address
 * @returns {import('./sampled.js').Grouping}
 */
function pageGroups(script, scriptName) {
  const modules = modulesOf(script);
  return ({ functionName, url, lineNumber }) => {
    if (IDLE.has(functionName)) return 'idle';
    if (functionName === '(garbage collector)') return 'garbage collection';
    if (functionName === '(program)') return 'the browser';
    if (!url) return null;
    if (url !== scriptName) return "the page's code";
    const file = [...modules].reverse().find(({ line }) => line <= lineNumber)?.file || 'main.js';
    return `recorder: ${PARTS.find(([form]) => form.test(file))?.[1]}`;
  };
}

/**
 * The groups of the recorder's own process.
 * @param {CallFrame} frame
 */
function processGroups({ functionName, url }) {
  if (IDLE.has(functionName)) return 'idle';
  if (functionName === '(garbage collector)') return 'garbage collection';
  if (functionName === '(program)') return 'Node';
  if (/\/(?:acorn|parse5|entities)\//.test(url)) return 'parsing';
  const [, folder] = /\/recorder\/(\w+)\//.exec(url) || [];
  switch (folder) {
    case 'instrument': return 'instrumenting';
    case 'browser': return 'responses and protocol';
    case 'trace': return 'reading the log';
    case 'texts': return 'texts';
    case undefined: return null;
    default: return 'other modules';
  }
}

module.exports = { pageGroups, processGroups, modulesOf };
