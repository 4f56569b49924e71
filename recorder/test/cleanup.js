'use strict';
// Commands and folders of a test, which end with its process, also if a signal ends that.

const { spawn } = require('node:child_process');
const fs = require('node:fs');
const os = require('node:os');
const path = require('node:path');
const { within } = require('../common/time.js');

/**
 * A command that runs: its standard output and standard error so far, and its status.
 * @typedef {import('node:child_process').ChildProcessByStdio<null, import('node:stream').Readable, import('node:stream').Readable>
 *   & {output: string, said: string, ended: Promise<number|null>}} Command
 */

/** Milliseconds for which the commands of a test are waited for after a signal. */
const LONGEST_END = 6000;
/** @type {Set<Command>} */
const commands = new Set();

/**
 * A folder for the files of a test.
 * @param {string} name
 */
function temporaryFolder(name) {
  const folder = fs.mkdtempSync(path.join(os.tmpdir(), `er-${name}-`));
  process.on('exit', () => fs.rmSync(folder, { recursive: true, force: true, maxRetries: 10, retryDelay: 50 }));
  return folder;
}

/**
 * Starts a command.
 * @param {string} program
 * @param {string[]} args
 * @param {import('node:child_process').SpawnOptions} options
 * @returns {Command}
 */
function start(program, args, options = {}) {
  const child = spawn(program, args, { ...options, stdio: ['ignore', 'pipe', 'pipe'] });
  /** @type {Promise<number|null>} */
  const ended = new Promise((resolve, reject) => {
    child.on('error', reject);
    child.on('close', resolve);
  });
  const command = Object.assign(child, { output: '', said: '', ended });
  [command.stdout, command.stderr].forEach((stream) => stream.setEncoding('utf8'));
  command.stdout.on('data', (piece) => { command.output += piece; });
  command.stderr.on('data', (piece) => { command.said += piece; });
  commands.add(command);
  command.on('close', () => commands.delete(command));
  return command;
}

/**
 * Runs a command to its end, or for `longest` milliseconds.
 * @param {string} program
 * @param {string[]} args
 * @param {import('node:child_process').SpawnOptions & {longest: number}} options
 */
async function run(program, args, { longest, ...options }) {
  const command = start(program, args, options);
  const limit = setTimeout(() => command.kill(), longest);
  const status = await command.ended;
  clearTimeout(limit);
  return { status, stdout: command.output, stderr: command.said };
}

/** @param {NodeJS.Signals} signal */
async function endBy(signal) {
  commands.forEach((command) => command.kill());
  await within(Promise.allSettled([...commands].map(({ ended }) => ended)), LONGEST_END);
  process.exit(128 + os.constants.signals[signal]);
}

for (const signal of /** @type {const} */ (['SIGINT', 'SIGTERM', 'SIGHUP'])) process.on(signal, endBy);

module.exports = { temporaryFolder, start, run };
