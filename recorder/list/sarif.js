'use strict';
// The list as SARIF 2.1.0, the format in which code hosts (GitHub code scanning) and editors take what a tool found: a rule for each pattern, a result for each
// problem, with its name as the fingerprint.

const fs = require('node:fs');
const path = require('node:path');
const { FIXES } = require('./fixes.js');
const { LOOKS, RANKS } = require('./patterns/table.js');
const { placesOf, plainPlace, uriOf } = require('./places.js');
const { kindOf } = require('./verdicts.js');

/**
 * @typedef {import('./listing.js').Listing} Listing
 * @typedef {import('./listing.js').Listed} Listed
 * @typedef {import('./patterns/table.js').LookKey} LookKey
 * @typedef {Pick<import('./json.js').ListFacts, 'page'|'folder'>} SarifFacts
 */

const SCHEMA = 'https://json.schemastore.org/sarif-2.1.0.json';
const VERSION_FILE = path.join(__dirname, '..', '..', 'VERSION');
/** @type {{[part: string]: string}} */
const LEVELS = { 'loses what a user does': 'error', 'may throw': 'warning', other: 'warning' };
/** @type {Record<LookKey, string>} */
const SAYS = {
  late: 'An event of a user may find no handler.',
  field: 'A field may be written over what a user typed.',
  act: 'What a user\'s act wrote may be written over.',
  undefined: 'A read or a look-up may find nothing.',
  missed: 'An event of the page may find no handler.',
  replies: 'An older reply may come after a newer one.',
  other: 'Two accesses to one location that nothing orders.',
  flag: 'Each side sets a flag and asks that of the other.',
  ended: 'A callback may run before code clears it.',
  counter: 'Both sides count up, and neither uses the value.',
  ticks: 'The first ticks of two intervals of one delay come in order.',
  same: 'Both sides write the same value.',
  scratch: 'Each action writes all of a value, and none reads that of another.',
  acts: 'Two acts of a user, or two handlers of one act, touch one location.',
};

/** @param {LookKey} look */
const idOf = (look) => `race/${LOOKS[look].name.replace(/ /g, '-')}`;
/** @param {{part: string, link?: string}} look  a link works without its handler */
const levelOf = ({ part, link }) => (link === 'click' ? 'warning' : LEVELS[part] || 'note');

/** @param {string} text */
const capital = (text) => text.slice(0, 1).toUpperCase() + text.slice(1);

/** @param {LookKey} look */
function rule(look) {
  return { id: idOf(look), name: LOOKS[look].name, shortDescription: { text: SAYS[look] }, help: { text: `${capital(FIXES[look])}.` }, defaultConfiguration: { level: levelOf(LOOKS[look]) } };
}

/**
 * @param {import('./places.js').PlainPlace} place
 * @param {{id?: number, message?: {text: string}}} facts
 */
function location({ file, line, column }, facts = {}) {
  return { ...facts, physicalLocation: { artifactLocation: { uri: file }, region: { startLine: line, startColumn: column } } };
}

/**
 * The first place that is known is the result's, the other one is related. A result must have a location: without a known place it is the page itself.
 * @param {import('./problems.js').Problems} problems
 * @param {number} race
 * @param {SarifFacts} facts
 */
function locationsOf(problems, race, { page, folder }) {
  const { actions } = problems.report.races[race];
  const known = placesOf(problems, race).flatMap((one, k) => {
    const place = plainPlace(problems, one, folder);
    return place ? [{ place, text: problems.words.action(actions[k]) }] : [];
  });
  const [first, second] = known;
  return {
    locations: [first ? location(first.place) : { physicalLocation: { artifactLocation: { uri: uriOfPage(problems, page, folder) } } }],
    ...(second ? { relatedLocations: [location(second.place, { id: 1, message: { text: second.text } })] } : {}),
  };
}

/**
 * The address that was recorded; if it is unknown, what the caller names.
 * @param {import('./problems.js').Problems} problems
 * @param {string} page
 * @param {SarifFacts['folder']} folder
 */
function uriOfPage({ names }, page, folder) {
  return uriOf((names.documents['0']?.address || names.page || page).replace(/#.*$/, ''), folder);
}

/**
 * A problem as a `result` of SARIF.
 * @param {Listing} listing
 * @param {Listed} problem
 * @param {SarifFacts} facts
 */
function result(listing, problem, facts) {
  const { name, look, words, isKnown, run, first } = problem;
  const replay = listing.verdictOf(problem);
  const inOtherOrder = replay && `Replayed: ${replay.sentence || replay.words}.`;
  return {
    ruleId: idOf(look.look),
    ruleIndex: RANKS.indexOf(look.look),
    level: levelOf(look),
    message: { text: [`${listing.summaryOf(problem)}.`, words, look.seen && `${look.seen}.`, listing.seenInWords(problem), inOtherOrder].filter(Boolean).join(' ') },
    ...locationsOf(listing.runs[run], first, facts),
    partialFingerprints: { 'raceName/v1': name },
    ...(replay ? { properties: { replay: { verdict: replay.verdict, differs: !!replay.effect, differsByItself: kindOf(replay) === 'differs', effect: replay.effect } } } : {}),
    ...(isKnown ? { suppressions: [{ kind: 'external', justification: 'it stands in the file of known races' }] } : {}),
  };
}

/** The version of this tool, if its file is there. */
function version() {
  try {
    return { version: fs.readFileSync(VERSION_FILE, 'utf8').trim() };
  } catch {
    return {}; // a copy of the recorder alone has no such file
  }
}

/**
 * What the recordings lack, if they lack something.
 * @param {Listing} listing
 */
function invocationsOf({ runs }) {
  const lines = runs.flatMap(({ notComplete }) => notComplete);
  const notices = lines.map((text) => ({ level: 'warning', message: { text: `The recording is not complete: ${text}` } }));
  return lines.length ? { invocations: [{ executionSuccessful: false, toolExecutionNotifications: notices }] } : {};
}

/**
 * The list as SARIF: a rule for each pattern, a result for each problem.
 * Called by outputs.js.
 * @param {Listing} listing
 * @param {SarifFacts} facts
 */
function sarifOf(listing, facts) {
  const driver = { name: 'EventRacer', ...version(), rules: RANKS.map(rule) };
  return {
    $schema: SCHEMA,
    version: '2.1.0',
    runs: [{ tool: { driver }, ...invocationsOf(listing), columnKind: 'utf16CodeUnits', results: listing.lines.map((problem) => result(listing, problem, facts)) }],
  };
}

module.exports = { sarifOf };
