'use strict';
// What the code of a load has requested, as another run of the suite can find it: places in the browser's copies become places in the texts.

/** The notes of what a run of a suite can hold back (replay/causes/run-facts.js). */
const ASKS = /^(?:early )?(set|every|ask|post|on|send) (\d+)/;
const PLACE = /^(.*):(\d+):(\d+)$/s;

/** @typedef {[word: string, number: string, place: string, way: string]} AskedByLoad the places of the calls that led there are a line each */

/**
 * A place in the text, which all runs have, for one in the copy, which depends on the run.
 * @param {import('../texts/sources.js').Sources} sources
 * @param {string} place in the browser's copy
 */
function placeInText(sources, place) {
  const [, address, line, column] = PLACE.exec(place) || [];
  const found = address === undefined ? null : sources.copyAt(address);
  if (!found) return place;
  const original = found.copy.originalPlace(Number(line), Number(column));
  return `${address}:${original.line}:${original.column}`;
}

/**
 * All that the code of a load has requested and that another run can hold back, with the way of calls there.
 * Called by load.js.
 * @param {Pick<import('./load.js').Load, 'intake'|'sources'>} load
 * @returns {AskedByLoad[]}
 */
function askedOf({ intake, sources }) {
  const inText = (/** @type {string} */ place) => placeInText(sources, place);
  const ways = new Map(intake.names.filter(({ kind }) => kind === 'stack').map(({ number, places }) => [String(number), (places || '').split('\n').map(inText).join('\n')]));
  return intake.entries.flatMap(({ text, place = '', stack }) => {
    const [, word, number] = ASKS.exec(text) || [];
    return word ? [/** @type {AskedByLoad} */ ([word, number, inText(place), ways.get(String(stack ?? '')) || ''])] : [];
  });
}

/**
 * What was requested, as a log for `Causes`. Called by suite-loads.js.
 * @param {AskedByLoad[]} asked
 * @returns {import('../replay/causes/run-facts.js').Log}
 */
function logOf(asked) {
  const ways = [...new Set(asked.map(([, , , way]) => way).filter(Boolean))];
  return {
    entries: asked.map(([word, number, place, way]) => ({ text: `${word} ${number}`, place, ...way ? { stack: String(ways.indexOf(way)) } : {} })),
    names: ways.map((places, number) => ({ kind: 'stack', number, places })),
  };
}

/**
 * Where a place of a text is in the browser's copy; null if the browser has no copy of it. Called by load-steering.js.
 * @param {import('../texts/sources.js').Sources} sources
 * @param {string} place
 * @returns {import('../page/types').Spot|null}
 */
function spotOf(sources, place) {
  const [, address, line, column] = PLACE.exec(place) || [];
  const found = address === undefined ? null : sources.copyAt(address);
  if (!found) return null;
  const { line: row, from, to } = found.copy.changedPlaces(Number(line), Number(column));
  return { line: `${address}:${row}:`, from, to };
}

module.exports = { askedOf, logOf, spotOf };
