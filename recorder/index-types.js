'use strict';
// What the functions of the interface for programs return, and the messages to the process of a call: types only. They name no other type of the recorder,
// so that their declarations are complete in three small files (tools/declarations); tools/types compares them with the code of the list. The package has
// these files. A checkout has none: a file index.d.ts beside index.js would take its place in the check of types. TypeScript finds the types of results here
// (JSDoc).

/**
 * `USAGE`: wrong arguments. `REFUSED`: the analyzer refused a trace. `NO_PAGE`: the page, the trace, the suite or the browser to attach to cannot be used.
 * `FAILED`: the browser failed, or a file could not be written. `NOT_DONE`: a step of `actions` could not be done. `NO_ANALYZER`: it is missing, or for
 * `replay` not built. `ABORTED`: the signal was aborted; `cause` is its reason. `INTERNAL`: a bug of EventRacer.
 * @typedef {'USAGE'|'REFUSED'|'NO_PAGE'|'FAILED'|'NOT_DONE'|'NO_ANALYZER'|'ABORTED'|'INTERNAL'} Code
 */
/**
 * A recording. `isComplete` is false if its time was over or a step could not be done; then `why` is the code of that. `errors` are uncaught errors of the
 * page, and `lost` says what was not recorded. `loadTime` is in milliseconds.
 * @typedef {{format: 1, page: string, trace: string, names: string, isComplete: boolean, why: 'NO_PAGE'|'NOT_DONE'|null, actions: number,
 *   loadTime: number|null, errors: string[], lost: string[]}} Recording
 */
/**
 * A place in a source; line and column are from 1.
 * @typedef {{file: string, line: number, column: number, function?: string}} SourcePlace
 */
/**
 * A race of a problem: its stable name, its trace (from 1), its number in the report of this trace, and its two sides.
 * @typedef {{name: string, run: number, race: number, modes: string, lines: number[], actions: number[], words: string,
 *   places: (SourcePlace|null)[]}} ProblemRace
 */
/**
 * A problem of a list, with the members of docs/ci.md, "JSON". `replay` is there if it was run again.
 * @typedef {{name: string, look: string, part: string, seen: string, words: string, summary: string, fix: string,
 *   rank: {number: number, reason: string}, isKnown: boolean, fails: boolean, hasLine: boolean, runs: number[], bothOrders: boolean,
 *   names: {name: string, runs: number[], bothOrders: boolean}[], races: ProblemRace[],
 *   replay?: {race: number, verdict: string, differs: boolean, effect?: string, sentence?: string, words: string}}} Problem
 */
/**
 * A list of races: `isFailing` if a problem is new. `leftOut`, `notComplete`, `unmarked` and `ofLibraries` have an item for each trace (docs/ci.md,
 * "JSON").
 * @typedef {{format: 1, isFailing: boolean, traces: string[], views: string[], problems: Problem[], notSeen: {name: string, words: string}[],
 *   leftOut: {location: string, words: string, accesses: number, pairs: number}[][], notComplete: string[][], unmarked: unknown[][],
 *   ofLibraries: ({accesses: number, objects: number}|null)[]}} Report
 */
/**
 * What came of a race in the other order: `isFound` is false if the race did not come again. `race` is its number in the report, `verdict`, `effect` and
 * `words` are those of OUT.replay.json (docs/replay.md). `folder` has the traces; with `command`, also what it printed. `suiteStatus` is the status of
 * `command` in the other order.
 * @typedef {{format: 1, isFound: boolean, race: number, verdict: string|null, effect: string|null, words: string, folder: string,
 *   suiteStatus?: number}} Reversal
 */

/**
 * `args` are those of er_record, of er_suite (for `list`, and for a `replay` with a suite's command), or of er_replay.
 * @typedef {{name: 'record', url: string, trace: string, args: string[]}} RecordTask
 * @typedef {{name: 'attach', endpoint: string, trace: string, args: string[]}} AttachTask
 * @typedef {{name: 'list', traces: string[], args: string[]}} ListTask
 * @typedef {{name: 'replay', trace: string, problem: string|number, isOfSuite: boolean, args: string[]}} ReplayTask
 * @typedef {RecordTask|AttachTask|ListTask|ReplayTask} Task
 * @typedef {{result: Recording|Report|Reversal}|{status: number, message: string}} Answer
 */

module.exports = {};
