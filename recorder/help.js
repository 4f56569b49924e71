'use strict';
// Prints the help of a command: `node help.js COMMAND`. It requires no package but Node, so that help needs no installation.

const { HELP } = require('./options/help.js');

const command = /** @type {keyof typeof HELP} */ (process.argv[2]);
console.log(HELP[command]);
