'use strict';
// Why two actions of a trace are ordered, or that they are not: the answer of the program's subcommand `explain`, in words.

const fs = require('node:fs');
const { STATUS } = require('../common/status.js');
const { Actions } = require('../races/actions.js');
const { explain } = require('../races/links.js');
const { ruleInWords } = require('./rules.js');
const { Words } = require('../races/words.js');

/**
 * The lines that explain why one action comes before another. Called by view.js.
 * @param {string} traceFile
 * @param {import('../list/types').Names} names
 * @param {number} from
 * @param {number} to
 * @returns {Promise<{status: number, lines: string[]}>} lines of an error, if the status is not 0
 */
async function why(traceFile, names, from, to) {
  const { steps, fault } = await explain(traceFile, from, to);
  if (/^refused \d+ no-action$/.test(fault)) return { status: STATUS.usage, lines: [`the trace has no action ${from} or no action ${to}`] };
  if (fault) return { status: fault.startsWith('refused ') ? STATUS.refused : STATUS.noProgram, lines: [`no explanation: ${fault}`] };
  const words = new Words(names, new Actions(fs.readFileSync(traceFile, 'utf8').replace(/end\n$/, '')));
  const told = (/** @type {number} */ action) => `action ${action} (${words.action(action)})`;
  if (!steps) return { status: 0, lines: [`Nothing puts ${told(from)} before ${told(to)}.`] };
  const lines = steps.map(([before, after, rule]) => `  ${told(before)} comes before ${told(after)}, by ${ruleInWords(rule)}`);
  return { status: 0, lines: [`These steps put ${told(from)} before ${told(to)}:`, ...lines] };
}

module.exports = { why };
