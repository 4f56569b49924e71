// The settings of a recording, from outside of the page: one object, which page-script.js writes after the modules.

/* global given */

/** @type {import('../types').Settings} */
const settings = given;

export { settings };
