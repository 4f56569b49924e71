'use strict';
// index.html of a test suite: its page loads, each with its view, and the problems of all of them.

const { escapeText } = require('../common/shown.js');
const { replaysInWords } = require('./verdicts.js');

/**
 * @typedef {import('./loads-listing.js').LoadsListing} LoadsListing
 * @typedef {import('./listing.js').Listed} Listed
 */

const STYLE = 'body{font:15px/1.45 sans-serif;margin:2em;max-width:75em}table{border-collapse:collapse}td,th{text-align:left;vertical-align:top;padding:.2em .8em .2em 0}'
  + 'li{margin:.4em 0}.known{color:#666}.test{color:#666;font-size:85%}h2{margin-top:1.6em}';
/** So many loads are named beside a problem. */
const MOST_LOADS = 8;

/** @param {string} file relative to the page @param {string} text */
const link = (file, text) => `<a href="${escapeText(file.split('/').map(encodeURIComponent).join('/'))}">${escapeText(text)}</a>`;
/** @param {number} number @param {string} one */
const count = (number, one) => `${number} ${one}${number === 1 ? '' : 's'}`;

/**
 * A problem in the page, with links to the views of the first loads that have it.
 * @param {LoadsListing} listing
 * @param {string[]} links
 * @param {Listed} one
 */
function problemItem(listing, links, one) {
  const seen = one.runs.slice(0, MOST_LOADS).map((run) => link(links[run - 1], String(run))).join(', ');
  const more = one.runs.length > MOST_LOADS ? `, and ${one.runs.length - MOST_LOADS} more` : '';
  const [, replayed = ''] = listing.entries.details(one, []).find(([label]) => label === 'replayed') || [];
  return `<li${one.isKnown ? ' class="known"' : ''}>${escapeText(listing.summaryOf(one))}. ${escapeText(one.words)}${one.look.seen ? ` (${escapeText(one.look.seen)})` : ''}`
    + ` <code>${one.name}</code>${replayed && `<br>Replayed: ${escapeText(replayed)}`}<br>Usual change: ${escapeText(listing.fixOf(one))}<br>in ${one.runs.length === 1 ? 'load' : 'loads'} ${seen}${more}${one.orders.size > 1 ? ', in both orders' : ''}</li>`;
}

/**
 * The problems by section, known ones last.
 * @param {LoadsListing} listing
 * @param {string[]} links
 */
function problemList(listing, links) {
  const lines = listing.fresh();
  const known = listing.knownLines();
  const parts = [...new Set(lines.map((one) => listing.partOf(one)))].map((part) => ({ part, some: lines.filter((one) => listing.partOf(one) === part) }));
  const sections = known.length ? [...parts, { part: 'known', some: known }] : parts;
  return sections.map(({ part, some }) => `<h3>${escapeText(part)}</h3>\n<ul>\n${some.map((one) => problemItem(listing, links, one)).join('\n')}\n</ul>`).join('\n');
}

/**
 * A load in the table: its address and test, how many problems and errors it has, and why its recording ended.
 * @param {import('./types').Load} load
 * @param {number} number
 * @param {string} file
 * @param {{fresh: number, known: number}} found
 */
function loadRow(load, number, file, { fresh, known }) {
  const { address, test = {}, errors = [], why = '', actions = '' } = load;
  const told = [count(fresh, 'problem'), ...known ? [`${known} known`] : [], ...errors.length ? [count(errors.length, 'error')] : []].join(', ');
  return `<tr><td>${number}</td><td>${link(file, address)}<br><span class="test">${escapeText([test.name, test.words].filter(Boolean).join(': '))}</span></td>`
    + `<td>${actions}</td><td>${told}</td><td>${escapeText(why)}</td></tr>`;
}

/**
 * The HTML of the page, which loads.js writes.
 * @param {LoadsListing} listing
 * @param {import('./types').Load[]} loads
 * @param {string[]} links each load's view, relative to the page
 */
function loadsPage(listing, loads, links) {
  const counts = listing.countsByLoad();
  const replays = replaysInWords(listing.verdicts);
  const rows = loads.map((load, k) => loadRow(load, k + 1, links[k], counts[k])).join('\n');
  return `<!doctype html>
<html lang="en">
<meta charset="utf-8">
<title>Races of ${count(loads.length, 'page load')}</title>
<style>${STYLE}</style>
<h1>Races of ${count(loads.length, 'page load')}</h1>
<h2>Problems</h2>
${replays && `<p>${escapeText(replays)}.</p>\n`}${listing.lines.length ? problemList(listing, links) : '<p>No race.</p>'}
<h2>Loads</h2>
<table><tr><th></th><th>page and test</th><th>actions</th><th>found</th><th>its end</th></tr>
${rows}
</table>
</html>
`;
}

module.exports = { loadsPage };
