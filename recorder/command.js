'use strict';
// How each command of the recorder starts and ends: its help, wrong arguments, faults that have a status, and internal errors. The exit status and the message
// of each error.

const { print, printError } = require('./common/output.js');
const { BrowserFault } = require('./browser/protocol.js');
const { redactStream } = require('./common/secrets.js');
const { STATUS } = require('./common/status.js');
const { WriteFault } = require('./common/whole-file.js');
const { endWith } = require('./ending.js');
const { KnownFault } = require('./list/known.js');
const { HELP, usageOf } = require('./options/help.js');
const { UsageFault } = require('./options/parse.js');
const { OriginFault } = require('./recording/origin.js');
const { RecordingFault } = require('./recording/session.js');

/** @typedef {keyof typeof HELP} Command */

/** Why a command ends with a status. */
class CommandFault extends Error {
  /**
   * @param {string} message
   * @param {number} status
   */
  constructor(message, status) {
    super(message);
    this.status = status;
  }
}

/**
 * The status of a fault whose message says all, or null for an internal error. Called by index-task.js and load-judge.js.
 * @param {unknown} fault
 */
function statusOf(fault) {
  if (fault instanceof CommandFault || fault instanceof RecordingFault) return fault.status;
  if (fault instanceof UsageFault || fault instanceof KnownFault) return STATUS.usage;
  if (fault instanceof WriteFault || fault instanceof BrowserFault) return STATUS.failed;
  return fault instanceof OriginFault ? STATUS.noPage : null;
}

/**
 * Prints why a command failed. Returns its status.
 * @param {Command} command
 * @param {unknown} fault
 */
function report(command, fault) {
  const message = fault instanceof Error ? fault.message : String(fault);
  const status = statusOf(fault);
  if (status === null) {
    printError(`${command}: internal error: ${fault instanceof Error ? fault.stack : message}`);
    printError(`${command}: this is a bug of EventRacer: please report it with these lines, the command, and the page if it can be shared`);
    return STATUS.internal;
  }
  if (message) printError(`${command}: ${message}`);
  if (fault instanceof UsageFault) printError(`${usageOf(command)}\nRun ${command} --help for all options`);
  return status;
}

/**
 * Runs a command with the arguments of this process, and ends the process with its status.
 * @param {Command} command
 * @param {(args: string[]) => Promise<number>} main
 */
function runCommand(command, main) {
  process.on('uncaughtException', (fault) => endWith(report(command, fault)));
  [process.stdout, process.stderr].forEach(redactStream);
  const args = process.argv.slice(2);
  main(args).catch((fault) => report(command, fault)).then(endWith);
}

/**
 * Prints the help of a command. Returns its status.
 * @param {Command} command
 */
function printHelp(command) {
  print(HELP[command]);
  return STATUS.ok;
}

module.exports = { runCommand, printHelp, statusOf, CommandFault };
