'use strict';
// The calls that the evaluation makes for one page: er_record with and without a recording, er_page with its replays, and the program with its costs.

const fs = require('node:fs');
const path = require('node:path');
const { PROGRAM } = require('../../races/program.js');
const { run } = require('../cleanup.js');

const TOP = path.join(__dirname, '..', '..', '..');
const LONGEST_RECORDING = 900000;
const LONGEST_MEASURE = 3600000;
const LONGEST_ANSWER = 600000;
/** Five clicks on a slow network, in two seeds: of each file the second one's delay is another too. */
const RUNS = [['--clicks', '5', '--seed', '1', '--slow', '400'], ['--clicks', '5', '--seed', '2', '--slow', '401']];

/**
 * @typedef {import('./types').Costs} Costs
 * @typedef {import('./types').Ended} Ended
 * @typedef {import('./types').Loads} Loads
 * @typedef {import('./types').Measured} Measured
 * @typedef {import('./types').Recorded} Recorded
 * @typedef {import('./types').RecordedBoth} RecordedBoth
 * @typedef {import('./types').Said} Said
 */

let isStopped = false;
['SIGINT', 'SIGTERM', 'SIGHUP'].forEach((signal) => process.on(signal, () => { isStopped = true; }));

/**
 * What er_record and er_page print of a recording on standard error.
 * @param {string} said
 * @returns {Said}
 */
function readSaid(said) {
  const after = (/** @type {string} */ begin) => said.split('\n').filter((line) => line.startsWith(begin)).map((line) => line.slice(begin.length));
  const load = /^ {2}load of the page: ([\d.]+) s$/m.exec(said);
  return { load: load ? Number(load[1]) : null, errors: after('  error: '), notRecorded: after('  not recorded: '), notDone: after('  not done') };
}

/**
 * The line that says what went wrong: the first one of the command, else the first one of any command or with an error of Node, else the last one.
 * @param {string} text what was said on standard error
 * @param {string} [command] the name of the command, where it calls other ones
 */
function faultOf(text, command) {
  const lines = text.trim().split('\n');
  const own = command && lines.find((line) => line.startsWith(`${command}: `) && !/^\w+: \d+ actions in /.test(line));
  return (own || lines.find((line) => /^(\w*Error\b|er_\w+: )/.test(line)) || lines[lines.length - 1]).slice(0, 300);
}

/**
 * Whether a recording is there, if only for as long as its time was.
 * @param {{status: number|null, stderr: string}} ended
 */
const isRecorded = ({ status, stderr }) => status === 0 || (status === 4 && /^er_\w+: the recording is not complete/m.test(stderr));

/** The calls of one page. Its files are in a folder of its own. */
class PageCalls {
  /**
   * @param {string} page its file
   * @param {string} root the folder that is served
   * @param {string} folder
   */
  constructor(page, root, folder) {
    this.page = page;
    this.root = root;
    this.folder = folder;
    this.said = path.join(folder, 'said');
  }

  /**
   * Once a signal came nothing follows: what runs is ended then, and this process after it (cleanup.js).
   * @param {string} program
   * @param {string[]} words
   * @param {number} longest
   */
  async call(program, words, longest, cwd = this.folder) {
    const begin = Date.now();
    const { status, stdout, stderr } = await run(program, words, { longest, cwd });
    if (isStopped) await new Promise(() => {});
    const seconds = (Date.now() - begin) / 1000;
    fs.appendFileSync(this.said, `== ${[path.basename(program), ...words].join(' ')}: status ${status}, ${seconds.toFixed(1)} s\n${stderr}`);
    return { status, stdout, stderr, seconds };
  }

  /**
   * @param {string} file
   * @param {string[]} words
   * @returns {Promise<Recorded>}
   */
  async record(file, words) {
    const { status, stderr, seconds } = await this.call(path.join(TOP, 'er_record'), [this.page, file, '--root', this.root, ...words], LONGEST_RECORDING);
    return { status, seconds, ...readSaid(stderr), ...isRecorded({ status, stderr }) ? {} : { failure: faultOf(stderr) } };
  }

  /** Both recordings, each after a run without the recorder. */
  async runs() {
    /** @type {RecordedBoth[]} */
    const runs = [];
    for (const [k, words] of RUNS.entries()) {
      const plain = await this.record(`${k + 1}.trace`, [...words, '--raw']);
      runs.push({ plain, ...await this.record(`${k + 1}.trace`, words) });
    }
    return runs;
  }

  /**
   * Loads on a quick network without acts of a user, with and without the recorder alternately.
   * @param {number} times
   */
  async loads(times) {
    /** @type {Loads} */
    const loads = { without: [], with: [] };
    for (let k = 0; k < times; k++) {
      loads.without.push((await this.record('load.trace', ['--raw'])).load);
      loads.with.push((await this.record('load.trace', [])).load);
    }
    return loads;
  }

  /**
   * er_page with its replays, in a folder of its own. After its time it is stopped, and prints what it found until then.
   * @param {{most: number, minutes: number}} options
   * @returns {Promise<Ended>}
   */
  async replay({ most, minutes }) {
    const own = path.join(this.folder, 'replay');
    fs.rmSync(own, { recursive: true, force: true });
    fs.mkdirSync(own, { recursive: true });
    const words = [this.page, '--root', this.root, ...RUNS[0], '--replay', '--most', String(most), '--json'];
    const { status, stdout, stderr, seconds } = await this.call(path.join(TOP, 'er_page'), words, minutes * 60000, own);
    fs.writeFileSync(path.join(own, 'listing.json'), stdout);
    return { status, seconds, ...status === 1 || isRecorded({ status, stderr }) ? {} : { failure: faultOf(stderr, 'er_page') } };
  }

  /**
   * What the recordings have (measure.js), read in a process of its own.
   * @returns {Promise<Measured>}
   */
  async measure() {
    const { status, stdout, stderr } = await this.call(process.execPath, ['--max-old-space-size=4096', path.join(__dirname, 'measure.js'), this.folder], LONGEST_MEASURE);
    if (status !== 0) throw new Error(`measure.js: status ${status}: ${faultOf(stderr)}`);
    return JSON.parse(stdout);
  }

  /**
   * What the program takes for the first recording's report; null where it was not to be had.
   * @returns {Promise<Costs|null>}
   */
  async costs() {
    const { status, stdout } = await this.call(path.join(__dirname, 'costs.py'), [PROGRAM, '1.trace'], LONGEST_ANSWER);
    const [seconds, kilobytes] = stdout.split(' ').map(Number);
    return status === 0 ? { seconds, megabytes: kilobytes / 1024 } : null;
  }
}

module.exports = { PageCalls, readSaid, faultOf, RUNS };
