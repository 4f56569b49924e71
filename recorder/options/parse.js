'use strict';
// Parses the arguments of a command by a table of its options. An option that is given twice is taken twice: its row replaces the value, or adds to a list. An
// unknown option is a UsageFault.

const { parseArgs } = require('node:util');

/** Wrong arguments. */
class UsageFault extends Error {}

/**
 * What an option does to the parsed options of its command. A flag has no value.
 * @template T
 * @typedef {{isFlag?: boolean, take: (options: T, value: string, name: string) => void}} Option
 */

/**
 * The options of a command, by their names without the dashes.
 * @template T
 * @typedef {{[name: string]: Option<T>}} OptionTable
 */

/** What looks like an option is no value, unless it follows a `=`. */
const LIKE_OPTION = /^-\D/;

/**
 * The value of an option: after `=`, or the next argument, if that is none like an option.
 * @param {{name: string, rawName: string, value?: string, inlineValue?: boolean}} token
 * @param {Option<any>} option of any command
 * @returns {string} the value, '' of a flag
 */
function valueOf({ rawName, value, inlineValue }, { isFlag }) {
  if (isFlag && inlineValue) throw new UsageFault(`${rawName} takes no value: ${value}`);
  if (isFlag) return '';
  if (value === undefined || (!inlineValue && LIKE_OPTION.test(value))) throw new UsageFault(`the value of ${rawName} is missing`);
  return value;
}

/**
 * Called by recording/options.js and view.js.
 * @template T
 * @param {string[]} args
 * @param {OptionTable<T>} table
 * @param {T} options the defaults, which are changed
 * @returns {{positionals: string[], isHelp: boolean}} `isHelp`: --help or -h is among the arguments, and nothing after it was read
 */
function parseArguments(args, table, options) {
  /** @type {{[name: string]: {type: 'boolean'|'string', short?: string}}} */
  const config = { help: { type: 'boolean', short: 'h' } };
  for (const [name, { isFlag }] of Object.entries(table)) config[name] = { type: isFlag ? 'boolean' : 'string' };
  const { tokens } = parseArgs({ args, options: config, strict: false, allowPositionals: true, tokens: true });
  const positionals = [];
  for (const token of tokens) {
    if (token.kind === 'positional') positionals.push(token.value);
    if (token.kind !== 'option') continue;
    if (token.name === 'help') return { positionals, isHelp: true };
    const option = Object.hasOwn(table, token.name) ? table[token.name] : null;
    if (!option) throw new UsageFault(`unknown option: ${token.rawName}`);
    option.take(options, valueOf(token, option), token.rawName);
  }
  return { positionals, isHelp: false };
}

/**
 * Fails if a command has fewer or more arguments than it takes, beside its options.
 * @param {string[]} positionals
 * @param {string[]} names of those that it takes, as in its usage
 */
function checkArguments(positionals, names) {
  if (positionals.length < names.length) throw new UsageFault(`${names[positionals.length]} is missing`);
  if (positionals.length > names.length) throw new UsageFault(`unexpected argument: ${positionals[names.length]}`);
}

module.exports = { parseArguments, checkArguments, UsageFault };
