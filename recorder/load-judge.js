'use strict';
// Analyzes page loads in a process of its own, for a list over many: the first message says how, each further one names a trace, and each answer has what the
// list needs of it. Loads are answered in their order, since of a problem only the first load has the words.

const { statusOf } = require('./command.js');
const { STATUS } = require('./common/status.js');
const { judgeAndView } = require('./judged.js');
const { Known } = require('./list/known.js');
const { LoadRuns } = require('./list/loads-run.js');
const { useProgram } = require('./races/program.js');

/**
 * @typedef {{program: ReturnType<import('./races/program.js').programFacts>, command: 'er_suite'|'er_page', known: string|null, isWhole: boolean,
 *   isLinkedAll: boolean, hearsSignals: boolean}} Start `isLinkedAll`: each view has all paths; `hearsSignals`: no signal ends the process while it is busy
 * @typedef {{number: number, file: string}} Task
 * @typedef {{facts: import('./list/loads-run.js').LoadFacts, load: import('./list/types').Load}} Stored
 * @typedef {{number: number, status: number, stored?: Stored, fault?: string}} Answer `fault` is why the call ends with the status
 */

/** Made once in each process; by loads.js if one process is enough. */
class LoadJudge {
  /** @param {Start} start */
  constructor({ program, command, known, isWhole, isLinkedAll, hearsSignals }) {
    useProgram(program);
    this.command = command;
    this.known = known ? Known.readFile(known, true) : null;
    this.runs = new LoadRuns(isWhole);
    this.hearsSignals = hearsSignals;
    this.isLinked = isLinkedAll ? null : (/** @type {string} */ name) => !this.runs.seen.has(name);
    /** @type {Promise<unknown>} */
    this.last = Promise.resolve();
  }

  /**
   * @param {string} file
   * @returns {Promise<{status: number, stored?: Stored}>}
   */
  judge(file) {
    const { last } = this;
    const own = this.judgeAfter(last, file);
    this.last = own.catch(() => {}); // who asked for it gets its fault
    return own;
  }

  /**
   * Analyzes a load and writes its view. Its facts are given their numbers only after the load before it, so that numbers do not depend on who is faster.
   * @param {Promise<unknown>} last
   * @param {string} file
   */
  async judgeAfter(last, file) {
    const { known, isLinked, hearsSignals } = this;
    const { view, status } = await judgeAndView(file, this.command, { known, isLinked, hearsSignals });
    await last;
    if (!view) return { status };
    /** @type {import('./list/types').Names & {load?: import('./list/types').Load}} */
    const { load, page = file } = view.problems.names;
    return { status: STATUS.ok, stored: { facts: this.runs.factsOf(view.problems), load: { address: page, ...load } } };
  }
}

/** @type {LoadJudge|null} */
let judge = null;

/**
 * What another process gets of a load (load-judges.js): its facts, or the status and the words of a fault.
 * @param {Task} task
 * @returns {Promise<Answer>}
 */
async function answerOf({ number, file }) {
  try {
    return { number, ...await (/** @type {LoadJudge} */ (judge)).judge(file) };
  } catch (fault) {
    const status = statusOf(fault);
    return { number, status: status ?? STATUS.internal, fault: fault instanceof Error ? String(status === null ? fault.stack : fault.message) : String(fault) };
  }
}

if (require.main === module) {
  process.on('message', async (/** @type {Start|Task} */ message) => {
    if ('program' in message) judge = new LoadJudge(message);
    else process.send?.(await answerOf(message));
  });
  process.on('disconnect', () => process.exit()); // the caller has gone, or needs no more
  for (const signal of ['SIGINT', 'SIGHUP']) process.on(signal, () => {}); // of a terminal: the caller decides
}

module.exports = { LoadJudge };
