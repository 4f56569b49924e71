'use strict';
// What a command reports of the races that it has replayed: in lines, in page.replay.json and in the view.

const { print, printError } = require('./common/output.js');
const { jsonText, withoutCommands } = require('./common/shown.js');
const { redactedObject, redactedValue } = require('./common/secrets.js');
const { writeWhole } = require('./common/whole-file.js');
const { EntryPlaces } = require('./list/entry-places.js');
const { countsInWords } = require('./list/verdicts.js');
const { attribute } = require('./replay/attribution.js');
const { verdictInWords, verdictOf, worstOfOwn, orderOfResults, groupInWords, plain, VERDICTS } = require('./replay/verdict.js');
const { besides, writePage } = require('./view.js');
const { arranged } = require('./view/lines.js');

/** @typedef {import('./list/listing.js').Listing} Listing */
/** @typedef {import('./replay/replay.js').Replay} Replay */
/** @typedef {import('./replay-command.js').Judged} Judged */
/** @typedef {{number: number, result: Parameters<typeof plain>[0]}} Result of the race with this number */
/** @typedef {(number: number) => import('./replay/sentence.js').Where} Where */

const PREFIXES = /^(turned: differs|could not be turned|turned): /;

/**
 * The number of the race by which a problem is listed. Called by replay-command.js.
 * @param {{races: number[], first?: number}} problem
 */
const raceOf = ({ races, first }) => (first ?? races[0]) + 1;

/**
 * The first line of a race's entry in the list; its number if it has none.
 * @param {Listing} listing
 * @param {number} number
 */
function lineOf(listing, number) {
  const told = listing.told().find(({ line }) => line.run === 0 && raceOf(line) === number);
  return told ? `${listing.summaryOf(told.line)}:` : `race ${number}:`;
}

/** Made by replay-command.js for the races of a call. */
class ReplayResults {
  /**
   * @param {Judged} judged
   * @param {string} traceFile
   * @param {{name: string, isJson: boolean}} options
   */
  constructor({ report, linked, listing }, traceFile, { name, isJson }) {
    this.report = report;
    this.linked = linked;
    this.listing = listing;
    this.traceFile = traceFile;
    this.isJson = isJson;
    this.hasList = name === 'er_page' && !isJson; // the list comes next, and has each result
    /** @type {Result[]} */
    this.all = [];
  }

  /**
   * Adds what came of a race. What comes from a race that is not done is known only at the end.
   * @param {number} number
   * @param {Result['result']} result
   * @returns {string} the result in words
   */
  add(number, result) {
    this.all.push({ number, result });
    attribute(this.all);
    return `${lineOf(this.listing, number)} ${VERDICTS[verdictOf(result)]}`;
  }

  /**
   * Reports what came of all: in lines, in page.replay.json and in the view.
   * @param {Replay} replay
   * @param {number} requested how many races
   */
  async tell(replay, requested) {
    for (const { number, result } of this.all) result.chance = replay.recorded.orders.chanceOf(this.report.races[number - 1]);
    attribute(this.all);
    this.all.sort(orderOfResults);
    this.listing.setVerdicts(0, this.plain()); // their order decides which entry is above another one
    const places = new EntryPlaces(this.listing);
    const whereOf = (/** @type {number} */ number) => places.of(0, number - 1);
    const printLine = this.isJson ? printError : print;
    this.lines(requested, whereOf).slice(this.hasList ? -1 : 0).forEach((line) => printLine(withoutCommands(line)));
    const races = this.plain(whereOf);
    this.listing.setVerdicts(0, races);
    this.write(replay, races, await this.linked);
  }

  /**
   * The results as page.replay.json has them.
   * @param {Where} [whereOf] where the list has a race, by its number
   */
  plain(whereOf) {
    const { entries } = this.listing;
    return redactedObject(this.all.map(({ number, result }) => plain(result, this.report.races[number - 1], number, whereOf, entries.eventOf(0, number - 1))));
  }

  /**
   * What is printed about all replayed races, and is in the file of verdicts.
   * @param {number} requested how many races
   * @param {Where} whereOf
   */
  lines(requested, whereOf) {
    const races = `${requested} race${requested === 1 ? '' : 's'}`;
    if (!this.all.length) return [`Replayed 0 of ${races}.`];
    const lines = ['Run again in the other order:'];
    let part = '';
    for (const { number, result } of this.all) {
      const verdict = verdictOf(result);
      if (verdict !== part) lines.push(`-- ${VERDICTS[verdict]}`);
      part = verdict;
      const worst = worstOfOwn(result);
      const group = groupInWords(result.group);
      const words = verdictInWords(result, number, whereOf).replace(PREFIXES, ''); // the part says it
      lines.push(`${lineOf(this.listing, number)} ${worst ? `${worst.name}: ` : ''}${words}${group ? `; ${group}` : ''}`);
    }
    return [...lines, `Replayed ${this.all.length} of ${races}: ${countsInWords(this.all.map(({ result }) => verdictOf(result)))}.`];
  }

  /**
   * Writes what the replay found.
   * @param {Replay} replay
   * @param {ReturnType<typeof plain>[]} races
   * @param {import('./view.js').Shown} model
   */
  write(replay, races, model) {
    const unsteady = replay.unsteady.map(({ kind, subject }) => ({ kind, subject }));
    writeWhole(besides(this.traceFile, '.replay.json'), `${jsonText({ replay: 1, page: replay.recorder.given, races, unsteady }, 1, redactedValue)}\n`);
    const pictures = this.all.map(({ result }) => result.picture || null);
    const groups = redactedObject(this.all.map(({ result }) => groupInWords(result.group)));
    const replays = races.map((race, k) => {
      const shownRace = { ...race, differences: race.differences || [], trace: race.trace || '', picture: pictures[k], groupWords: groups[k] };
      return /** @type {import('./view/types').ShownReplay} */ (shownRace);
    });
    writePage(this.traceFile, { ...arranged(model, this.listing), replays, recordedPicture: replay.recorded.run.end.picture?.small || null });
  }
}

module.exports = { ReplayResults, raceOf };
