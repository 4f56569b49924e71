'use strict';
// Which problems are one entry of the list, and by which of them it is shown.

const { LINKS } = require('./patterns/table.js');
const { shownByChange } = require('./registering-calls.js');

/**
 * @typedef {import('./listing.js').Listed} Listed
 * @typedef {import('./listing.js').Line} Line
 * @typedef {import('./listing.js').Listing} Listing
 */

/**
 * Equal for problems that are one line. All properties of the style of an element are one location. One act of a user and two are never one line: the browser
 * decides the order of one, the user that of two.
 * @param {Listing} listing @param {Listed} line
 */
function keyOf(listing, line) {
  const { run, first, look } = line;
  const call = look.look === 'late' ? listing.entries.callOf(line) : '';
  const location = listing.runs[run].report.races[first].location.replace(/ style(?:\.\S+)?$/, ' style');
  return call ? `${run} call ${call}` : `${listing.partOf(line)} ${look.detail === 'one'} ${run} ${location}`;
}

/**
 * A line of overwriting replies is shown by a problem of one callback, which writes over what it wrote itself.
 * @param {Line} told @param {(one: Listed) => string} rankOf @returns {Line}
 */
function shownByOneCallback({ line, others }, rankOf) {
  const isOfOne = (/** @type {Listed} */ { look, sites: [one, two] }) => look.look === 'replies' && one === two;
  const other = line.look.look === 'replies' && !isOfOne(line) && others.find((one) => isOfOne(one) && rankOf(one) === rankOf(line));
  return other ? { line: other, others: [line, ...others.filter((one) => one !== other)] } : { line, others };
}

/**
 * A line of handlers that one call registers is shown by the click at a link, if what is worse in it only comes along with a click at one.
 * @param {Listing} listing @param {Line} told @returns {Line}
 */
function shownByLink(listing, { line, others }) {
  const link = line.look.link === 'part' && !listing.verdictOf(line) && others.find((one) => one.look.link === 'click' && listing.partOf(one) === LINKS);
  const isWorse = (/** @type {Listed} */ one) => listing.partOf(one) === listing.partOf(line) && one.look.link !== 'part';
  return link && !others.some(isWorse) ? { line: link, others: [line, ...others.filter((one) => one !== link)] } : { line, others };
}

/**
 * The lines of the list: what is new at one location, and in one section of the list, is one line, and late handlers that one call registers. In a build each
 * problem is a line, with its name. Called by listing.js.
 * @param {Listing} listing @returns {Line[]}
 */
function grouped(listing) {
  /** @type {Map<string, Line>} */
  const lines = new Map();
  for (const line of listing.fresh()) {
    const key = listing.known ? line.name : keyOf(listing, line);
    const known = lines.get(key);
    if (known) known.others.push(line);
    else lines.set(key, { line, others: [] });
  }
  const inWords = (/** @type {Listed} */ each) => JSON.stringify([each.look.look, listing.partOf(each), listing.rankOf(each)]);
  const isReplayed = (/** @type {Listed} */ each, /** @type {Listed} */ line) => (
    !!listing.verdictOf(each) && [listing.partOf(line), ...listing.partOf(line) === LINKS ? [line.look.part] : []].includes(listing.partOf(each)));
  const shown = [...lines.values()].map((one) => shownByLink(listing, shownByOneCallback(shownByChange(one, inWords, (each) => isReplayed(each, one.line)), inWords)));
  return inSections(listing, shown);
}

/**
 * Lines in the order of the first problem of each that is in the line's section, so that no section comes twice.
 * @param {Listing} listing @param {Line[]} lines
 */
function inSections(listing, lines) {
  const indices = new Map(listing.fresh().map((one, k) => [one, k]));
  const indexOf = (/** @type {Line} */ { line, others }) => Math.min(...[line, ...others].filter((one) => listing.partOf(one) === listing.partOf(line)).map((one) => indices.get(one) ?? 0));
  return lines.map((one) => ({ one, index: indexOf(one) })).sort((a, b) => a.index - b.index).map(({ one }) => one);
}

module.exports = { grouped };
