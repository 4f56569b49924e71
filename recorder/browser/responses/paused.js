'use strict';
// Requests and responses that the browser has paused, as the interceptors of this folder get them: each does one thing with an event, and
// answers whether it has dealt with it.

/**
 * @typedef {{name: string, value: string}} Header
 * @typedef {{requestId: string, networkId?: string, redirectedRequestId?: string, frameId: string, resourceType: string,
 *   request: {url: string, method: string, headers?: {[name: string]: string}},
 *   responseStatusCode?: number, responseErrorReason?: string, responseHeaders?: Header[]}} Paused an event `Fetch.requestPaused`
 * @typedef {object} Interceptor
 * @property {(event: Paused) => boolean|Promise<boolean>} [passRequest] whether it has answered a request
 * @property {(event: Paused) => boolean|Promise<boolean>} [passResponse] whether it has answered a response
 * @typedef {{start: number, end: number, insert: string}} Insertion
 * @typedef {object} Holds what a replay holds back, as far as it changes the network (replay/steering.js)
 * @property {boolean} isInline whether what it puts into a page has its code there
 * @property {(event: Paused) => boolean} [meets] whether a request is one to hold back; called once for each
 * @property {(event: Paused) => boolean} isMet
 * @property {(event: Paused) => Promise<void>} [hold]
 * @property {(id: number, event: Paused) => Promise<void>} [holdFor]
 * @property {(open: Set<string>) => number} [countHeld]
 * @property {MakeInsertions} insertions
 * @typedef {(address: string, html: string) => Insertion[]} MakeInsertions what is put into a page
 */

/**
 * What instruments texts, and counts what it leaves out (texts/sources.js).
 * @typedef {object} Texts
 * @property {(address: string, html: string, insertions?: MakeInsertions) => string} rewritePage
 * @property {(address: string, code: string) => string} rewriteScript
 * @property {(address: string, map: string) => void} nameMap takes note of the source map that the response of a script names
 * @property {Map<string, string>} markedTexts
 * @property {Map<string, number>} missed
 * @property {Map<string, number>} dropped
 * @property {(counts: Map<string, number>, what: string) => void} count
 */

/**
 * Called by browser/responses.js.
 * @param {Paused} event
 */
const isResponse = (event) => event.responseStatusCode !== undefined || event.responseErrorReason !== undefined;

/**
 * Called by copies.js and keep-answers.js.
 * @param {Header[]|undefined} headers
 * @param {string} wanted in lower case
 */
const valueOf = (headers, wanted) => (headers || []).find(({ name }) => name.toLowerCase() === wanted)?.value || '';

module.exports = { isResponse, valueOf };
