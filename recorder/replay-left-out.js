'use strict';
// What the list says of a problem that was not replayed: why, and the command that replays it. The list has no number of a race, so the command has it.

const path = require('node:path');
const { called } = require('./common/called.js');

/** @typedef {import('./recording/options.js').CommandOptions} CommandOptions */

/**
 * The options of a recording that are not stored with it, by their members. They are given to `er_replay` again.
 * @type {[option: string, isGiven: (options: CommandOptions) => unknown][]}
 */
const NOT_STORED = [
  ['--yes', ({ mayChange }) => mayChange],
  ['--header', ({ headers }) => headers?.length],
  ['--http-credentials', ({ credentials }) => credentials],
  ['--cookie', ({ cookies }) => cookies?.length],
  ['--storage-state', ({ storageState }) => storageState],
  ['--user-data-dir', ({ userDataDir }) => userDataDir],
  ['--ignore-certificate-errors', ({ ignoresCertificateErrors }) => ignoresCertificateErrors],
];

/**
 * The command that replays a race of a run.
 * @param {{run: number, first: number}} line
 * @param {CommandOptions} options
 * @param {string} traceFile of the first run
 */
function commandOf({ run, first }, options, traceFile) {
  const trace = run ? path.join(path.dirname(traceFile), 'runs', `${run + 1}.trace`) : traceFile;
  const again = NOT_STORED.filter(([, isGiven]) => isGiven(options)).map(([option]) => option);
  return `${called('er_replay')} ${trace} --race ${first + 1}${again.length ? ` with ${again.join(', ')} as here` : ''}`;
}

/**
 * What the list says in place of a verdict; '' if the races were chosen by their numbers. Called by replay-command.js.
 * @param {{run: number, first: number}} line
 * @param {CommandOptions} options
 * @param {string} traceFile of the first run
 * @param {string} why races of the first run were left out
 */
function leftOutInWords(line, options, traceFile, why) {
  if (options.races.length) return '';
  return `no (${line.run ? 'run 1 does not have it' : why}; ${commandOf(line, options, traceFile)} does it)`;
}

module.exports = { leftOutInWords };
