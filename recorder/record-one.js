'use strict';
// Records one page of a list, as a process of its own. Its arguments are in ER_PAGE_ARGUMENTS: KEY [options of er_record] -- URL OUT.trace. Beside the trace
// it writes OUT.recorded.json, last: how the recording ended, and the key of its address and options.

const { runCommand } = require('./command.js');
const { writeWhole } = require('./common/whole-file.js');
const { parseCommand } = require('./recording/options.js');
const { recordInto } = require('./record.js');
const { besides } = require('./view.js');

/**
 * What OUT.recorded.json has. With `failed` nothing can be done with the trace; `incomplete` is the status of one that lacks something.
 * @typedef {{format: 1, key: string, failed: number, incomplete: number}} Recorded
 */

/** One page of a list, in a process of its own: what it gets is in ER_PAGE_ARGUMENTS, what many-pages.js reads of it is in a file beside the trace. */
async function main() {
  /** @type {string[]} */
  const [key, ...args] = JSON.parse(process.env.ER_PAGE_ARGUMENTS || '[]');
  delete process.env.ER_PAGE_ARGUMENTS; // the browser need not have it
  const { options, positionals: [given, traceFile] } = parseCommand('er_record', args);
  const { failed, incomplete } = await recordInto('er_page', given, traceFile, options);
  /** @type {Recorded} */
  const recorded = { format: 1, key, failed, incomplete };
  writeWhole(besides(traceFile, '.recorded.json'), `${JSON.stringify(recorded)}\n`);
  return failed || incomplete;
}

runCommand('er_page', main);
