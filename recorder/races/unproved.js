'use strict';
// Answers of the analyzer's source, compiled without its proof (tools/unproved). One answer takes a minute, and so do many that are requested together.

const { spawn } = require('node:child_process');
const { createHash } = require('node:crypto');
const fs = require('node:fs');
const path = require('node:path');

/** @typedef {import('./program.js').Output} Output */
/** @typedef {{words: string[], trace: string}} Query the arguments, and the trace on standard input */

const COMMAND = path.join(__dirname, '..', '..', 'tools', 'unproved');
/** The arguments for the report of a trace, as text and as JSON. */
const REPORTS = [[], ['--json']];
/** @type {Output} */
const NO_ANSWER = { status: 10, output: '', fault: 'the analyzer is not built' };

/**
 * A query is about what the trace contains: a file that was written again is another trace.
 * @param {Query} query
 */
function keyOf({ words, trace }) {
  return `${words.join(' ')} ${createHash('sha256').update(fs.readFileSync(trace)).digest('hex')}`;
}

/** Made once, by program.js, if there is no built analyzer. */
class Unproved {
  constructor() {
    /** @type {Map<string, Output>} the answers that came, by query */
    this.answers = new Map();
    /** @type {Set<import('node:child_process').ChildProcess>} */
    this.running = new Set();
    /** Whether a reader knows already that the answers are not proved. */
    this.isAnnounced = false;
  }

  /**
   * Answers a query. A report is requested as text and as JSON, since most traces need both. Called by program.js.
   * @param {string[]} words
   * @param {string} trace
   */
  async query(words, trace) {
    const key = keyOf({ words, trace });
    const isReport = REPORTS.some((report) => report.join(' ') === words.join(' '));
    if (!this.answers.has(key)) await (isReport ? this.queryReports([trace]) : this.queryAll([{ words, trace }]));
    return this.answers.get(key) || NO_ANSWER;
  }

  /**
   * Requests the reports of traces, all at once. Called by program.js.
   * @param {string[]} traces
   */
  queryReports(traces) {
    return this.queryAll(traces.flatMap((trace) => REPORTS.map((words) => ({ words, trace }))));
  }

  /**
   * Queries the program that is not proved for several answers in one call, and keeps them.
   * @param {Query[]} queries
   */
  async queryAll(queries) {
    const keys = queries.map(keyOf);
    const answers = await this.call(queries.map(({ words, trace }) => ({ words, trace: path.resolve(trace) })));
    keys.forEach((key, k) => this.answers.set(key, answers?.[k] || NO_ANSWER));
  }

  /**
   * Starts the program with some questions.
   * @param {Query[]} queries
   * @returns {Promise<Output[]|null>} null if no answer came, after a line on standard error
   */
  call(queries) {
    const child = spawn(COMMAND, ['questions', ...this.isAnnounced ? ['told'] : []], { stdio: ['pipe', 'pipe', 'inherit'] });
    this.isAnnounced = true;
    this.running.add(child);
    /** @type {Buffer[]} */
    const pieces = [];
    child.stdout.on('data', (piece) => pieces.push(piece));
    child.stdin.on('error', () => {}); // it has ended
    child.stdin.end(JSON.stringify(queries));
    return new Promise((resolve, reject) => {
      child.on('error', reject);
      child.on('close', (status) => {
        this.running.delete(child);
        resolve(status === 0 ? JSON.parse(Buffer.concat(pieces).toString()) : null);
      });
    });
  }

  /** Ends what runs, and waits for it. Called by program.js. */
  async end() {
    await Promise.all([...this.running].map((child) => new Promise((resolve) => {
      child.on('close', resolve);
      child.kill();
    })));
  }
}

module.exports = { Unproved };
