'use strict';
// Calls the analyzer (built, or unproved.js): queries about a trace. Nothing else here decides what races. It is spawned as a child process. If it crashes, is
// killed, gives no answer or cannot be run, its status and its words are the answer.

const { spawn, spawnSync } = require('node:child_process');
const fs = require('node:fs');
const path = require('node:path');
const { STATUS } = require('../common/status.js');
const { Unproved } = require('./unproved.js');

/**
 * What a run of the analyzer wrote to standard output and standard error.
 * @typedef {{status: number|null, output: string, fault: string}} Output
 */

/** @typedef {import('./types').Judged} Judged */

const TOP = path.join(__dirname, '..', '..');
/** The path of the analyzer. `ER_CLI` names another one, with the same arguments, input and output; it is not a command line, so blanks are part of it. */
const PROGRAM = process.env.ER_CLI || path.join(TOP, 'er_cli');
/** The states in which answers come at once. */
const AT_ONCE = ['built', 'plain'];

const unproved = new Unproved();
let state = process.env.ER_CLI ? 'built' : '';
let program = PROGRAM;

/**
 * The first word of what tools/program prints, which is run once: `built`; `plain` if a program without proofs answers, after lines on standard error; `older` or `unbuilt` if an answer takes a minute; or `missing`, after a
 * line on standard error. The commands query it before they record or replay (page-races.js, suite.js, view.js, replay-command.js, index-task.js).
 */
function programState() {
  if (!AT_ONCE.includes(state)) {
    const { status, stdout } = spawnSync(path.join(TOP, 'tools', 'program'), ['--plain'], { encoding: 'utf8', stdio: ['ignore', 'pipe', 'inherit'] });
    state = status === 0 ? stdout.split(/\s/)[0] : 'missing';
    if (state === 'plain') program = stdout.trim().slice('plain '.length);
  }
  return state;
}

const answersAtOnce = () => AT_ONCE.includes(programState());
/** Called by view.js. */
const isProved = () => programState() === 'built';

/** Which program answers, for a process that this one starts. Called by loads.js. */
const programFacts = () => ({ state: programState(), program });

/**
 * Takes the program of the process that started this one. Called by load-judge.js.
 * @param {ReturnType<typeof programFacts>} facts
 */
function useProgram(facts) {
  ({ state, program } = facts);
}

/** @param {NodeJS.ErrnoException} cause why the analyzer did not start */
const whyNot = ({ code, message }) => (code === 'ENOENT' ? 'there is no such file (the variable ER_CLI names the analyzer)' : message);

/**
 * Runs the analyzer on a trace, which is its standard input. It never fails: a program that cannot be run has a status too.
 * @param {string[]} args
 * @param {string} traceFile
 * @returns {Promise<Output>}
 */
function runProgram(args, traceFile) {
  if (!answersAtOnce()) return unproved.query(args, traceFile);
  const input = fs.openSync(traceFile, 'r');
  const child = spawn(program, args, { stdio: [input, 'pipe', 'pipe'] });
  fs.closeSync(input);
  /** @type {Buffer[]} */
  const output = [];
  /** @type {Buffer[]} */
  const fault = [];
  child.stdout?.on('data', (piece) => output.push(piece));
  child.stderr?.on('data', (piece) => fault.push(piece));
  return new Promise((resolve) => {
    child.on('error', (cause) => resolve({ status: STATUS.noProgram, output: '', fault: `${program} cannot be run: ${whyNot(cause)}` }));
    child.on('close', (status) => resolve({ status, output: Buffer.concat(output).toString(), fault: Buffer.concat(fault).toString().trim() }));
  });
}

/**
 * Has the reports of several traces ready, if each answer takes a minute: together they take no longer than one. Called by index-task.js, loads.js and
 * page-races.js.
 * @param {string[]} traceFiles
 */
async function askAhead(traceFiles) {
  if (!answersAtOnce()) await unproved.queryReports(traceFiles);
}

/**
 * Has a trace analyzed. Called by within-limits.js.
 * @param {string} traceFile
 * @returns {Promise<Judged>} a report, or why there is none
 */
async function judge(traceFile) {
  const { status, output, fault } = await runProgram(['--json'], traceFile);
  if (status === STATUS.ok || status === STATUS.race || status === STATUS.refused) return { status, report: JSON.parse(output) };
  return { status: status ?? STATUS.failed, fault: fault || `the analyzer ended with status ${status}` };
}

/**
 * Ends the queries that run, and this process with a status: for a signal.
 * @param {number} status
 */
async function endAsking(status) {
  await unproved.end();
  process.exit(status);
}

module.exports = { judge, runProgram, askAhead, answersAtOnce, isProved, programState, programFacts, useProgram, endAsking, PROGRAM };
