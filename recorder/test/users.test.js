'use strict';
// Comments that say who makes, calls or extends what a module exports ("Called by rest.js."): they are true, and each class or function that few modules use
// has one, or the first comment of its module.

const assert = require('node:assert');
const path = require('node:path');
const { test } = require('node:test');

const { readIndex, USERS } = require('../where-index.js');

/** @typedef {import('../where-index.js').Definition} Definition */
/** @typedef {Map<string, Set<string>>} Users the modules that use each name of a module */

/** What more modules use needs no comment. */
const FEW = 3;
const IMPORT = /const (\{[^}]*\}|\w+) = require\('(\.[^']*)'\)|import (\{[^}]*\}) from '(\.[^']*)'/g;
const EXPORTS = /(?:module\.exports = |\nexport )\{([^}]*)\};/;
const IS_CALLED = /^(?:class |(?:async )?function|const [\w$]+ = (?:async )?(?:\(.*\)|\w+) =>)/;

const MODULES = readIndex().modules.filter(({ name }) => !/^test\/|^where|\.d\.ts$/.test(name));
const BY_NAME = new Map(MODULES.map((module) => [module.name, module]));

/** @param {string} list names in braces */
const namesIn = (list) => list.replace(/[{}]/g, '').split(',').map((one) => one.trim().split(/\s+as\s+|\s*:\s*/)[0]).filter(Boolean);

/** @returns {Map<string, Users>} */
function usersOfAll() {
  const all = new Map(MODULES.map(({ name }) => [name, /** @type {Users} */ (new Map())]));
  for (const { name: user, text } of MODULES) {
    for (const [, required, from, imported, origin] of text.matchAll(IMPORT)) {
      const names = required && !required.startsWith('{') ? [...text.matchAll(new RegExp(`\\b${required}\\.(\\w+)`, 'g'))].map(([, name]) => name) : namesIn(required || imported);
      const users = all.get(path.posix.join(path.posix.dirname(user), from || origin));
      names.forEach((name) => users?.set(name, (users.get(name) || new Set()).add(user)));
    }
  }
  return all;
}

const USERS_OF = usersOfAll();

/**
 * The module that a comment names: of the same folder, or from recorder/ or page/ on.
 * @param {string} own @param {string} named
 */
const resolve = (own, named) => [path.posix.join(path.posix.dirname(own), named), named, `page/${named}`].find((name) => BY_NAME.has(name));

/**
 * Whether a comment names one of the users, by its file or its class; or the page or the recording has one.
 * @param {string} comment @param {string[]} users
 */
function namesUser(comment, users) {
  const words = users.flatMap((user) => [path.posix.basename(user), ...[...(BY_NAME.get(user)?.text || '').matchAll(/^class (\w+)/gm)].map(([, name]) => name)]);
  return /One for each (?:document|recording)/.test(comment) || words.some((word) => new RegExp(`(?<![\\w-])${word.replace('.', '\\.')}(?![\\w-])`).test(comment));
}

test('a class or a function that few modules use says which', () => {
  const missing = MODULES.flatMap(({ name: module, text, parts: { about, definitions, lines } }) => namesIn(EXPORTS.exec(text)?.[1] || '').flatMap((name) => {
    const users = [...USERS_OF.get(module)?.get(name) || []];
    const definition = definitions.find((one) => one.name === name);
    if (!definition || !users.length || users.length > FEW || !IS_CALLED.test(lines[definition.line - 1])) return [];
    return namesUser(`${definition.comment} ${about}`, users) ? [] : [`${module}:${definition.line}: ${name} is used by ${users.join(', ')}: say so in its comment`];
  }));
  assert.deepStrictEqual(missing, []);
});

test('a comment names as users only modules that are some', () => {
  let count = 0;
  for (const { name: module, parts: { about, definitions } } of MODULES) {
    for (const { name, comment } of [{ name: '', comment: about }, ...definitions]) {
      for (const [text] of comment.matchAll(USERS)) {
        for (const [named] of text.matchAll(/[\w./-]+\.js/g)) {
          const user = resolve(module, named) || '';
          const isUsed = [...USERS_OF.get(module) || []].some(([one, users]) => users.has(user) && (one === name || !name));
          assert.ok(isUsed || (name && new RegExp(`\\b${name}\\b`).test(BY_NAME.get(user)?.text || '')), `${module}: ${name}: ${text}`);
          count++;
        }
      }
    }
  }
  assert.ok(count > 300);
});
