'use strict';
// Which addresses are those of one request in two runs of a page, for kept answers and replays. The fragment and a time in the query (a timestamp parameter) do
// not count.

/** The time of a run in a query, in seconds or milliseconds, as jQuery's `cache: false` adds it: these are times from 2017 to 2096. */
const TIME = /(?<!\d)(?:1[5-9]|[23]\d)\d{8}(?:\d{3})?(?!\d)/g;

/**
 * Called by browser/responses/copies.js and browser/responses/folder-answers.js.
 * @param {string} address
 */
const withoutHash = (address) => address.replace(/#.*$/, '');

/**
 * An address as another run of the page requests it: without the fragment, and with another time in the query.
 * @param {string} address
 */
const inAnyRun = (address) => withoutHash(address).replace(/\?.*$/, (query) => query.replace(TIME, '*'));

module.exports = { withoutHash, inAnyRun };
