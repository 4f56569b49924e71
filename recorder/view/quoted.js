'use strict';
// Words of a command that a reader copies into a shell.

/**
 * A word in quotes if it has other signs than those of plain paths. Called by ../view.js and html.js.
 * @param {string} word
 */
const quoted = (word) => (/^[\w@%+=:,./-]+$/.test(word) ? word : `'${word.replace(/'/g, "'\\''")}'`);

module.exports = { quoted };
