#!/usr/bin/env node
'use strict';
// recorded-names.js [--write]: docs/recorded.md, the names by which something is recorded, from the recorder's own tables (recorded-tables.js).

const fs = require('node:fs');
const path = require('node:path');
const { constantsOf, hookedBy } = require('./recorded-tables.js');

const DOCUMENT = path.join(__dirname, '..', '..', 'docs', 'recorded.md');
const HEAD = `# Names that are recorded

By which properties, methods, functions and events \`er_record\` records something, for readers who look whether a name is among them. \`recorder/test/recorded-names.js --write\` makes this page from the tables of the recorder. Which locations these are: [recording.md](recording.md), "Locations"; what is missing: [lost.md](lost.md). A name that is in no table is recorded as a property of an object of the page, and of an object of the browser only if code puts it there.
`;

/**
 * A row: what the names do, the names, and a remark.
 * @typedef {[what: string, names: string[], remark?: string]} Row
 * @typedef {{title: string, head: string, rows: Row[]}} Section
 */

const shown = constantsOf('page/objects/shown.js');
const calls = constantsOf('instrument/insert/call-marks.js');
const members = constantsOf('instrument/insert/member-marks.js');
const collections = constantsOf('page/objects/collections.js');
const { FIELD_PROPERTIES, STORAGE_CALLS } = constantsOf('page/accesses/fields.js');
const lookups = constantsOf('page/accesses/lookups.js');
const changes = constantsOf('page/events/calls.js');
const { SOURCES } = constantsOf('page/document/attributes.js');
const connections = constantsOf('page/tasks/connections.js');
const media = constantsOf('page/events/media.js');
const motions = constantsOf('page/events/motions.js');

/** @param {Iterable<string>} names */
const sorted = (names) => [...new Set(names)].sort((a, b) => (a.toLowerCase() < b.toLowerCase() ? -1 : a.toLowerCase() > b.toLowerCase() ? 1 : 0));
/**
 * The names of a table whose values pass a test.
 * @param {{[name: string]: unknown}} table
 * @param {(value: any) => boolean} [test] of values of any kind
 */
const keysOf = (table, test = Boolean) => Object.keys(table).filter((name) => test(table[name]));
/**
 * The names of a table of owners with their names.
 * @param {[string, string[]][]} table
 */
const namesOf = (table) => table.flatMap(([, names]) => names);
/**
 * The names of a table of owners with one name each.
 * @param {[string, string][]} table
 */
const secondsOf = (table) => table.map(([, name]) => name);

/** @returns {Row[]} */
function rowsOfElements() {
  const all = { ...shown.SHOWN, ...shown.SHOWN_BY_SOME };
  const attributes = keysOf(all, (variable) => Boolean(variable) && variable !== shown.CONTENT);
  return [
    ['the content of an element', [...keysOf(all, (variable) => variable === shown.CONTENT), ...shown.READS_CONTENT, ...shown.CHANGES_CONTENT]],
    ['also the contents of the first 64 elements inside', keysOf(shown.DEEP, (depth) => depth === shown.TEXTS)],
    ['also their attributes', keysOf(shown.DEEP, (depth) => depth > shown.TEXTS), '`cloneNode` if its argument is true'],
    ['an attribute', [...attributes, ...shown.READS_ATTRIBUTE, ...hookedBy('page/document/attributes.js').filter((name) => /Attribute/.test(name))], 'and properties that begin with `aria`, except those of elements'],
    ['all attributes of an element', [...shown.READS_ATTRIBUTES]],
    ['styles, classes, data', [...keysOf(shown.PARTS), ...shown.READS_STYLE, 'setProperty', 'removeProperty', 'cssText', ...shown.READS_CLASSES]],
    ['form fields', [...FIELD_PROPERTIES.map((/** @type {string[]} */ [, name]) => name), 'selected', 'selectedOptions']],
    ['cookies and storage', ['cookie', ...keysOf(STORAGE_CALLS)]],
    ['ids', namesOf(lookups.LOOKUPS)],
    ['elements that another event made', namesOf(lookups.OTHERS)],
    ['the definition of a custom element', ['define', ...hookedBy('page/accesses/definitions.js')], 'of `customElements`, and members that only its class gives an element'],
  ];
}

/** @returns {Row[]} */
function rowsOfObjects() {
  const elements = new Set([...shown.READS_CONTENT, ...shown.CHANGES_CONTENT, ...shown.READS_ATTRIBUTE, ...shown.READS_ATTRIBUTES, ...shown.READS_CLASSES, ...shown.READS_STYLE,
    'setProperty', 'removeProperty', 'setAttribute', 'removeAttribute', 'toggleAttribute']);
  const changing = [...collections.CHANGES_ALL, 'push'];
  const keyed = [...calls.KEYED_METHODS].filter((name) => !elements.has(name));
  const reading = [...calls.METHODS].filter((name) => !elements.has(name) && !changing.includes(name) && !keyed.includes(name) && name !== 'clear');
  return [
    ['the items of an array, changed', changing],
    ['the items of an array, or the keys of a map or a set', reading],
    ['one key of a map or a set', keyed],
    ['all keys of a map or a set', ['clear']],
    ['functions that read an object as a whole', [...calls.READERS.keys()], 'of `Object`, `Reflect`, `JSON`, `Array`'],
    ['functions that read or write one property', [...calls.KEYED_TOOLS.keys(), ...calls.ASKS_FOR_NAME], 'of `Object`, `Reflect` and objects'],
    ['functions that write the properties of another object', [...calls.COPIERS.keys()], 'of `Object`'],
    ['objects of the language, of which only names are recorded that code puts there', [...members.TOOLS_OF_LANGUAGE]],
    ['objects of the browser, of which no name is recorded', [...members.TOOLS].filter((name) => !members.TOOLS_OF_LANGUAGE.has(name))],
  ];
}

/** @returns {Row[]} */
function rowsOfCalls() {
  const hooks = (/** @type {string} */ file) => hookedBy(`page/${file}.js`);
  return [
    ['registers or removes a handler', hooks('events/handlers'), 'and each property and attribute that begins with `on`'],
    ['dispatches events', [...namesOf(changes.DISPATCHERS), 'dispatchEvent', ...hooks('tasks/ended-requests')]],
    ['changes the tree, and what is loaded', [...namesOf(changes.INSERTIONS), ...namesOf(changes.SETTERS), ...secondsOf(SOURCES), ...hooks('document/made').filter((name) => name !== 'Image' && name !== 'Audio')]],
    ['makes an element', ['createElement', 'createElementNS', 'Image', 'Audio', ...hooks('document/reactions').filter((name) => name === 'define' || name === 'whenDefined')]],
    ['is called back', [...hooks('tasks/timers'), ...secondsOf(constantsOf('page/tasks/callbacks.js').CALLBACKS), ...constantsOf('page/tasks/observers.js').OBSERVERS, ...hooks('tasks/observers')]],
    ['clears a callback', Object.keys(constantsOf('page/tasks/ended-callbacks.js').QUEUES)],
    ['settles or waits for a promise', hooks('tasks/promises')],
    ['sends a request', [...hooks('tasks/requests'), ...connections.CONNECTIONS, ...namesOf(connections.READERS), ...namesOf(connections.ASKERS)]],
    ['posts a message', hooks('events/messages')],
    ['goes to another address', hooks('events/navigations')],
    ['opens, shows, scrolls or selects', hooks('events/causes')],
    ['plays', [...hooks('events/media'), ...media.CHANGES.keys()]],
    ['says whether an event is still to come', secondsOf(constantsOf('page/events/guards.js').STATES)],
  ];
}

/** @returns {Row[]} */
function rowsOfEvents() {
  const { CONSEQUENCES } = constantsOf('page/events/consequences.js');
  return [
    ['recorded without a handler too', constantsOf('page/events/capturing.js').ALWAYS_RECORDED, 'and `error` and `unhandledrejection` of a window'],
    ['can be consequences of an act', [...CONSEQUENCES.values()].flat()],
    ['of loading a video or an audio', [...media.OF_LOADING]],
    ['of playing it', [...media.OF_PLAYING, ...media.CHANGES.values()]],
    ['of motions', [...motions.FIRST_OF_MOTION.keys()]],
  ];
}

/** @returns {Section[]} */
const sections = () => [
  { title: 'Reads and writes of elements', head: 'What is read or written', rows: rowsOfElements() },
  { title: 'Reads and writes of objects', head: 'What is read or written', rows: rowsOfObjects() },
  { title: 'Calls', head: 'What the call, the constructor or the property does', rows: rowsOfCalls() },
  { title: 'Events', head: 'Which events', rows: rowsOfEvents() },
];

/** @param {Row} row */
const lineOf = ([what, names, remark]) => `| ${what} | ${sorted(names).map((name) => `\`${name}\``).join(', ')}${remark ? `; ${remark}` : ''} |`;

/** The whole document. */
function documentOfNames() {
  const parts = sections().map(({ title, head, rows }) => [`## ${title}`, '', `| ${head} | Names |`, '|---|---|', ...rows.map(lineOf), ''].join('\n'));
  return [HEAD, ...parts].join('\n');
}

/** The names of the document that are properties, methods or constructors. Also for recorded-page.test.js. */
const namesOfBrowser = () => sorted(sections().filter(({ title }) => title !== 'Events').flatMap(({ rows }) => rows.flatMap(([, names]) => names)));

if (require.main === module) {
  if (process.argv[2] === '--write') fs.writeFileSync(DOCUMENT, documentOfNames());
  else process.stdout.write(documentOfNames());
}

module.exports = { DOCUMENT, documentOfNames, namesOfBrowser };
