'use strict';
// The outputs of the list: lines for a reader, one object for other tools, SARIF, and the file of known races. Used by loads.js and page-races.js.

const { printStyled } = require('../common/output.js');
const { jsonText } = require('../common/shown.js');
const { writeWhole } = require('../common/whole-file.js');
const { linesOfEntry, sectionLine, styleOf, wrapped } = require('./entry-lines.js');
const { librariesInWords } = require('../trace/accesses.js');
const { plainListing } = require('./json.js');
const { APART } = require('./patterns/table.js');
const { sarifOf } = require('./sarif.js');
const { replaysInWords } = require('./verdicts.js');

/**
 * @typedef {import('./listing.js').Listing} Listing
 * @typedef {import('./entry-lines.js').Style} Style
 * @typedef {{isJson?: boolean, color?: string, sarif?: string|null, known?: string|null, writesKnown?: boolean}} OutputOptions
 */

/** The line after the list, only on a terminal: which documents explain it. */
const HELP = 'What the lines mean: docs/using.md, "A problem of the list"; usual changes for each pattern: docs/ci.md, "Patterns"';
/** @type {Style} */
const PLAIN = { hasColor: false, width: 100, isTerminal: false };

/**
 * The list in lines: what is new, section by section; then what is known.
 * @param {Listing} listing
 * @param {boolean} isComplete false if the recording lacks something of what was to be recorded
 * @param {Style} style
 * @param {{done?: string, unserved?: string}} facts what was done in the page, and what of it was not served, for a list without a race
 */
function linesOf(listing, isComplete = true, style = PLAIN, facts = {}) {
  const told = listing.told();
  const lines = told.length > 1 ? wrapped(countsOf(listing), style.width, '    ') : [];
  let part = '';
  const parts = new Set(told.map(({ line }) => listing.partOf(line)));
  const hasParts = parts.size > 1 || parts.has(APART);
  told.forEach(({ line, others }) => {
    const own = listing.partOf(line);
    if (hasParts && own !== part) lines.push(sectionLine(own, style));
    part = own;
    lines.push(...linesOfEntry(listing.entryOf(line, others), style), '');
  });
  if (!told.length) lines.push(noneInWords(listing, isComplete, facts));
  return [...lines, ...knownLines(listing), ...librariesLine(listing)];
}

/**
 * The line of a list without a race.
 * @param {Listing} listing
 * @param {boolean} isComplete
 * @param {{done?: string, unserved?: string}} facts
 */
function noneInWords(listing, isComplete, { done = '', unserved = '' }) {
  const none = listing.known && listing.problems.length ? 'No race that is not known' : 'No race';
  const recorded = isComplete ? none : `${none} in what was recorded, which is not complete`;
  return `${recorded}${unserved && (isComplete ? `, but ${unserved}` : `; ${unserved}`)}.${done && ` Done in the page: ${done}.`}`;
}

/**
 * The lines after the list: known problems that are there, and those that no recording had.
 * @param {Listing} listing
 */
function knownLines(listing) {
  const known = listing.knownLines();
  const head = known.length ? [`Known, in ${listing.known?.file}:`] : [];
  return [...head, ...known.map((one) => `  ${one.name} ${listing.summaryOf(one)}`),
    ...listing.notSeen().map(({ name, words }) => `Known, and not seen: ${name} ${words}`.trim())];
}

/**
 * How many problems there are, in how many entries, and how many entries each section has.
 * @param {Listing} listing
 */
function countsOf(listing) {
  const told = listing.told();
  const parts = told.map(({ line }) => listing.partOf(line));
  const counts = [...new Set(parts)].map((part) => `${part}: ${parts.filter((one) => one === part).length}`);
  const problems = told.reduce((sum, { others }) => sum + 1 + others.length, 0);
  const inEntries = problems > told.length ? ` in ${told.length} entr${told.length === 1 ? 'y' : 'ies'}` : '';
  return `${problems} problem${problems === 1 ? '' : 's'}${inEntries}${counts.length ? ` (${counts.join('; ')})` : ''}`;
}

/**
 * The last line of all, as `1 problem (may throw: 1)`, which page-races.js and loads.js print with the name of the view: how many problems and entries there are,
 * how many are known, what replays found, and whether the recordings lack something.
 * @param {Listing} listing
 */
function totalsOf(listing) {
  const known = listing.knownLines().length;
  const replays = replaysInWords(listing.verdicts);
  return [countsOf(listing), ...(known ? [`${known} known`] : []),
    ...(replays ? [replays] : []), ...incompleteInWords(listing)].join(', ');
}

/**
 * How many recordings lack something of what was to be recorded, at the end of the last line.
 * @param {Listing} listing
 */
function incompleteInWords({ runs }) {
  const count = runs.filter(({ notComplete }) => notComplete.length).length;
  if (!count) return [];
  return [runs.length === 1 ? 'in a recording that is not complete' : `${count} of ${runs.length} recordings are not complete`];
}

/**
 * The last line: what was left out by choice; of several runs, in the run that left out the most.
 * @param {Listing} listing
 */
function librariesLine({ runs }) {
  const [most] = runs.flatMap(({ ofLibraries }) => ofLibraries || []).sort((a, b) => b.accesses - a.accesses);
  return most ? [`${librariesInWords(most)}.`] : [];
}

/**
 * Prints the list for a reader.
 * @param {Listing} listing
 * @param {OutputOptions} options
 * @param {boolean} isComplete
 * @param {Parameters<typeof noneInWords>[2]} [facts]
 */
function tellLines(listing, options, isComplete = true, facts = {}) {
  if (options.isJson) return;
  const style = styleOf(process.stdout, process.env, options.color);
  linesOf(listing, isComplete, style, facts).forEach((line) => printStyled(line));
  if (style.isTerminal && listing.told().length) printStyled(HELP);
}

/**
 * Writes what was requested. Throws a WriteFault.
 * @param {Listing} listing
 * @param {OutputOptions} options
 * @param {import('./json.js').ListFacts} facts
 */
function writeOutputs(listing, options, facts) {
  if (options.sarif) writeWhole(options.sarif, `${jsonText(sarifOf(listing, facts), 1)}\n`);
  if (options.writesKnown && options.known && listing.known) {
    writeWhole(options.known, listing.known.textWith(listing.problems.filter((one) => listing.counts(one))));
  }
  if (options.isJson) process.stdout.write(`${jsonText(plainListing(listing, facts))}\n`);
}

module.exports = { writeOutputs, tellLines, linesOf, totalsOf };
