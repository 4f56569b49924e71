'use strict';
// What a recording lacks of its page, as lines: what the page's log has counted, and what the copies of its texts lack. These are the lines `not recorded: ..`.

/**
 * The counts of a run's texts (sources.js):
 * - `unmarked`: code that the parser can't read (unmarked.js). It runs as it is, without marks; each piece has its place and the parser's message.
 * - `missed`: other code that has no marks: XML pages, SVG scripts with elements in them, files at which the recorder failed.
 * - `dropped`: what the page has and its copy has not, so that the browser runs the copy: `integrity`, policies.
 * - `leftOut`: what only OUT.names.json lacks, such as source maps that could not be read. The trace has everything.
 * @typedef {Pick<import('./sources.js').Sources, 'unmarked'|'missed'|'dropped'|'leftOut'>} Counts
 */

/**
 * Called by driven/load.js and recording/session.js.
 * @param {{missed: {[what: string]: number}}} intake what the page's log has counted (`Log.miss` in page/log/log.js)
 * @param {Counts} counts
 * @returns {string[]}
 */
function lossesOf(intake, { unmarked, missed, dropped, leftOut }) {
  return [
    ...Object.entries(intake.missed).map(([what, count]) => `${what}: ${count}`),
    ...unmarked.lines(),
    ...[...missed].map(([what, count]) => `${what}, kept as they are: ${count}`),
    ...[...dropped].map(([what, count]) => `${what} dropped in the copy that the page sees: ${count}`),
    ...[...leftOut].map(([what, count]) => `${what}: ${count}`),
  ];
}

module.exports = { lossesOf };
