'use strict';
// A recording analyzed, with its report and its view beside it.

const { writeWhole } = require('./common/whole-file.js');
const { runProgram } = require('./races/program.js');
const { viewTrace, besides } = require('./view.js');

/**
 * Has a trace analyzed. The report is that of the trace as it is then: what the analyzer can't take is left out of it. Called by load-judge.js and
 * page-races.js.
 * @param {string} traceFile
 * @param {string} command whose name messages start with
 * @param {import('./view.js').ViewOptions} options
 */
async function judgeAndView(traceFile, command, options) {
  const [answer, report] = await Promise.all([viewTrace(traceFile, command, options), runProgram([], traceFile)]);
  const { output } = answer.view?.isRewritten ? await runProgram([], traceFile) : report;
  if (output) writeWhole(besides(traceFile, '.report'), output);
  return answer;
}

module.exports = { judgeAndView };
