'use strict';
// The records that begin an action, and what is known of each, from format.json: one table for all that read or write traces.

/**
 * A form of a record. `arguments` has a character for each argument: a small letter is a number that is declared, a capital one a number that was declared
 * before, # another number, " a name, ? a kind, @ a location.
 * @typedef {{word: string, arguments: string, nesting: string, version: number, starts?: string, lane?: string, asked?: string}} Form
 */
/**
 * `lane` is the one in the view's picture; `asked` the note that declares what the record names, and `by` the index of that number
 * among its tokens; `isDispatch` whether it begins a dispatch.
 * @typedef {{lane: string, asked?: string, by?: number, isDispatch?: boolean}} RecordFacts
 */

const format = require('./format.json');

/** @type {Form[]} */
const FORMS = format.records;
/**
 * What each letter of `arguments` is a number of.
 * @type {{[letter: string]: string}}
 */
const LETTERS = format.letters;
/** @type {Map<string, Form>} */
const BY_WORD = new Map(FORMS.map((form) => [form.word, form]));

/**
 * What is known of a record by its form in format.json: its lane, what requested it, and whether it is a dispatch.
 * @param {Form} form
 * @returns {RecordFacts}
 */
function factsOf({ arguments: numbers, lane = '', asked }) {
  const isDispatch = numbers.startsWith('p');
  const declared = asked && BY_WORD.get(asked)?.arguments[0].toUpperCase();
  return { lane, ...asked && { asked, by: numbers.indexOf(declared || '') + 1 }, ...isDispatch && { isDispatch } };
}

const OF_ACTIONS = FORMS.filter(({ nesting }) => nesting !== 'note');
/**
 * By the keyword.
 * @type {{[word: string]: RecordFacts}}
 */
const RECORDS = Object.fromEntries(OF_ACTIONS.map((form) => [form.word, factsOf(form)]));

/** The lanes of the picture in the view, from top to bottom. */
const LANES = ['Parser', 'Scripts', 'Timers', 'Network', 'Loading', 'User and events', 'Handlers'];
const BEGINS = new Set(OF_ACTIONS.map(({ word }) => word));
const DISPATCHES = new Set(OF_ACTIONS.filter(({ word }) => RECORDS[word].isDispatch).map(({ word }) => word));
/** The notes that declare what a record names. */
const NOTES = new Set(['on', ...OF_ACTIONS.flatMap(({ asked }) => asked || [])]);

module.exports = { FORMS, LETTERS, RECORDS, LANES, BEGINS, DISPATCHES, NOTES };
