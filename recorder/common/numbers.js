'use strict';
// The ranges of the numbers in a trace: of form fields, modules, objects, timeouts of others, and acts. The page's half gets those that it uses
// (page-script.js).

/** `var N` of a form field, or of an element's object: this plus the number of the element. */
const FIRST_FIELD = 1000000;
/** `var N` of a module's variables. */
const FIRST_MODULE = 2000000;
/** `var N` of other objects, and of scopes. */
const FIRST_OBJECT = 3000000;
/** `every N` of a timeout whose setter was not seen: this plus its number. */
const FIRST_FOREIGN_TIMEOUT = 3000000000;
/** `every N` of a module that no recorded code requested. */
const FIRST_LONE_MODULE = 3500000000;
/** The distance between the numbers of two acts of a user; the letters of a typed text have the numbers between. */
const LETTERS_OF_ACT = 1000;
/**
 * Called by recording/acts.js and replay/recorded.js.
 * @param {number} index from 0
 */
const numberOfAct = (index) => (index + 1) * LETTERS_OF_ACT;

module.exports = { FIRST_FIELD, FIRST_MODULE, FIRST_OBJECT, FIRST_FOREIGN_TIMEOUT, FIRST_LONE_MODULE, LETTERS_OF_ACT, numberOfAct };
