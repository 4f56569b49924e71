'use strict';
// How a reader calls a command: by its name if a package is installed, else at the top of the checkout.

const fs = require('node:fs');
const path = require('node:path');

/** A package has the program, and nothing that builds one. */
const isPackage = !fs.existsSync(path.join(__dirname, '..', '..', 'tools', 'build'));

/**
 * Called by replay/reversal.js and view.js.
 * @param {string} name
 */
const called = (name) => (isPackage ? name : `./${name}`);

module.exports = { called };
