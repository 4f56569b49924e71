'use strict';
// er_view OUT.trace: writes OUT.html, the races of a recorded page in words, with their places in its source.
// er_view OUT.trace --why A B: prints why action A comes before action B, if the analyzer has the subcommand `explain`.

const fs = require('node:fs');
const { print, printError } = require('./common/output.js');
const { runCommand, printHelp, CommandFault } = require('./command.js');
const { called } = require('./common/called.js');
const { STATUS } = require('./common/status.js');
const { stoppable } = require('./common/stoppable.js');
const { writeWhole } = require('./common/whole-file.js');
const { Listing } = require('./list/listing.js');
const { Problems } = require('./list/problems.js');
const { checkArguments, parseArguments, UsageFault } = require('./options/parse.js');
const { atSignalsMercy } = require('./phase.js');
const { linksBetween } = require('./races/links.js');
const { endAsking, isProved, programState } = require('./races/program.js');
const { judgeWithin } = require('./races/within-limits.js');
const { Model, MOST_LINKS } = require('./view/model.js');
const { quoted } = require('./view/quoted.js');
const { renderPage } = require('./view/html.js');
const { why } = require('./view/why.js');

/** @typedef {import('./list/known.js').Known} Known */

/** @typedef {import('./view/types').ViewModel} Shown what a view shows */

/**
 * A trace with its view: `model` is what the view shows, `linked` the same with all links between actions. `isRewritten` if something was left out of the
 * trace.
 * @typedef {{status: number, report: import('./races/types').Report, isRewritten: boolean, model: Shown, problems: Problems, linked: Promise<Shown>}} View
 */
/**
 * How a view is made: with the file of known races; `isLinkedLater` if its links are queried meanwhile, as when the page is run again; `isLinked` if links are
 * queried only for the problems for which it is true, as in a list of many loads; `hearsSignals` if a signal reaches the handlers of this process, and does not
 * end it.
 * @typedef {{known?: Known|null, isLinkedLater?: boolean, isLinked?: ((name: string) => boolean)|null, hearsSignals?: boolean}} ViewOptions
 */

/** Of a trace with more actions it is not queried why these are ordered: each query takes as long as the report, seconds. */
const MOST_TO_QUERY = 8000;
/** So many of the variables that are left out have a line. */
const MOST_LEFT_OUT = 3;
const NO_NAMES = {
  files: [], elements: {}, documents: {}, handlers: {}, timeouts: {}, intervals: {}, requests: {}, messages: {}, dispatches: {}, objects: {}, places: {},
};

/**
 * @param {string} traceFile
 * @param {string} ending
 */
const besides = (traceFile, ending) => traceFile.replace(/\.trace$/, '') + ending;

/**
 * The names beside a trace. A trace without them is shown with its numbers.
 * @param {string} traceFile
 */
function readNames(traceFile) {
  try {
    return JSON.parse(fs.readFileSync(besides(traceFile, '.names.json'), 'utf8'));
  } catch {
    return { ...NO_NAMES, page: traceFile }; // no file, or one of something else
  }
}

/**
 * @template T
 * @param {() => T} work
 */
const doNow = (work) => work();

/**
 * Writes the view of an analyzed trace; if its links come later, without them.
 * @param {string} traceFile
 * @param {import('./races/types').Report} report
 * @param {ViewOptions} options
 */
async function writeView(traceFile, report, { known = null, isLinkedLater = false, isLinked = null, hearsSignals = false }) {
  const text = fs.readFileSync(traceFile, 'utf8');
  const names = readNames(traceFile);
  const busy = isLinkedLater || hearsSignals ? doNow : atSignalsMercy; // a browser that runs for a replay ends only by a handler
  const problems = busy(() => new Problems(text, names, report));
  const model = busy(() => new Model(report, names, problems.words.actions));
  const pairs = isLinked ? model.pairsOf(problems.list.filter(({ name }) => isLinked(name)).map(({ first }) => first)) : model.pairsToExplain();
  const queried = report.actions <= MOST_TO_QUERY ? linksBetween(traceFile, pairs) : Promise.resolve([]);
  const links = isLinkedLater ? [] : await queried;
  const listing = busy(() => new Listing([problems], known));
  const trace = quoted(traceFile);
  const commands = { viewer: called('er_view'), trace: traceFile, command: `${called('er_view')} ${trace}`, report: `${called('er_cli')} < ${trace}` };
  /** @type {Shown} */
  const shown = { ...busy(() => model.build(links || [], listing)), leftOut: problems.leftOut, ofLibraries: problems.ofLibraries, notComplete: problems.notComplete, isUnproved: !isProved(), lacksLinks: !links, ...commands };
  busy(() => writePage(traceFile, shown));
  const linked = queried.then((all) => ({ ...shown, links: (all || []).slice(0, MOST_LINKS), lacksLinks: !all }));
  linked.catch(() => {}); // its fault is that of the command that waits for it
  return { model: shown, problems, linked };
}

/**
 * Called by page-races.js and replay-command.js.
 * @param {string} traceFile
 * @param {Shown} shown
 */
function writePage(traceFile, shown) {
  writeWhole(besides(traceFile, '.html'), renderPage(shown));
}

/**
 * What was left out, a line for each of the first and one for all others.
 * @param {import('./list/problems.js').Problems['leftOut']} all
 * @param {string} file that has all of it
 */
function leftOutLines(all, file) {
  const lines = all.slice(0, MOST_LEFT_OUT).map(({ words, accesses, pairs }) => `${words}, with ${accesses} accesses and ${pairs} pairs`);
  const others = all.slice(MOST_LEFT_OUT);
  const sum = (/** @type {'accesses'|'pairs'} */ what) => others.reduce((so, one) => so + one[what], 0);
  return others.length ? [...lines, `${others.length} more, with ${sum('accesses')} accesses and ${sum('pairs')} pairs: ${file} has them`] : lines;
}

/**
 * Has a trace analyzed and writes its view. Called by index-task.js, judged.js and replay-race.js.
 * @param {string} traceFile
 * @param {string} command whose name messages start with
 * @param {ViewOptions} [options]
 * @returns {Promise<{status: number, view?: View}>} no view if the trace was refused, or there is no report
 */
async function viewTrace(traceFile, command, options = {}) {
  const { status, report, fault, leftOut } = await judgeWithin(traceFile);
  if (!report) {
    printError(`${command}: the analyzer gave no report: ${fault}`);
    return { status };
  }
  if (report.refused) {
    printError(`${command}: ${traceFile}: the trace is refused at line ${report.refused.line}: ${report.refused.cause} (docs/format.md, "Refusals")`);
    return { status };
  }
  const shown = await writeView(traceFile, report, options);
  if (leftOut.length) printError(`${command}: ${traceFile} is written again without what is over the limits of the analyzer`);
  for (const line of leftOutLines(shown.problems.leftOut, besides(traceFile, '.names.json'))) printError(`${command}: left out, over the limits of the analyzer: ${line}`);
  return { status, view: { status, report, isRewritten: leftOut.length > 0, ...shown } };
}

/**
 * Prints why two actions are ordered. Returns the exit status.
 * @param {string} traceFile
 * @param {number} from
 * @param {number} to
 */
async function printWhy(traceFile, from, to) {
  const { status, lines } = await why(traceFile, readNames(traceFile), from, to);
  for (const line of lines) {
    if (status === 0) print(line);
    else printError(`er_view: ${line}`);
  }
  return status;
}

/**
 * er_view, also with `--why A B`.
 * @param {string[]} args
 */
async function main(args) {
  const options = { isWhy: false };
  /** @type {import('./options/parse.js').OptionTable<typeof options>} */
  const table = { why: { isFlag: true, take: (given) => { given.isWhy = true; } } };
  const { positionals, isHelp } = parseArguments(args, table, options);
  if (isHelp) return printHelp('er_view');
  const [traceFile, ...actions] = positionals;
  const areNumbers = actions.length === 2 && actions.every((one) => /^\d{1,9}$/.test(one));
  if (options.isWhy && !areNumbers) throw new UsageFault('--why takes the numbers of two actions, after OUT.trace');
  if (!options.isWhy) checkArguments(positionals, ['OUT.trace']);
  if (!fs.existsSync(traceFile)) throw new CommandFault(`there is no file ${traceFile}`, STATUS.noPage);
  if (programState() === 'missing') return STATUS.noProgram;
  return stoppable(() => endAsking(STATUS.stopped), async () => {
    if (options.isWhy) return printWhy(traceFile, Number(actions[0]), Number(actions[1]));
    return (await viewTrace(traceFile, 'er_view')).status;
  });
}

module.exports = { leftOutLines, viewTrace, writePage, besides };

if (require.main === module) runCommand('er_view', main);
