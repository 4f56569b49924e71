'use strict';
// Instruments the scripts that a page of a served folder names while the browser starts, so that the page does not wait for them. A web server is not asked
// ahead: it would get each request twice, without the browser's cookies and headers, and a link that is valid once would be used up.

const { readText } = require('../browser/text.js');
const { kindOfScript, sourceOf } = require('./page.js');
const { readTags } = require('./tags.js');

/** Names that every window has. The browser is not asked yet; the other names are left out when the code runs. */
const COMMON_NAMES = [
  'window', 'self', 'globalThis', 'top', 'parent', 'frames', 'document', 'navigator', 'location', 'history', 'screen', 'console', 'performance',
  'localStorage', 'sessionStorage', 'event', 'name', 'length', 'alert', 'confirm', 'prompt', 'open', 'close', 'fetch', 'XMLHttpRequest',
  'setTimeout', 'clearTimeout', 'setInterval', 'clearInterval', 'requestAnimationFrame', 'cancelAnimationFrame', 'getComputedStyle',
  'addEventListener', 'removeEventListener', 'Node', 'Element', 'HTMLElement', 'Event', 'Image', 'FormData', 'URL', 'Blob', 'File', 'FileReader',
  'Object', 'Function', 'Array', 'String', 'Number', 'Boolean', 'Symbol', 'Date', 'RegExp', 'Math', 'JSON', 'Map', 'Set', 'WeakMap', 'WeakSet',
  'Promise', 'Proxy', 'Reflect', 'Error', 'TypeError', 'RangeError', 'SyntaxError', 'ArrayBuffer', 'Uint8Array', 'parseInt', 'parseFloat',
  'isNaN', 'isFinite', 'encodeURIComponent', 'decodeURIComponent', 'encodeURI', 'decodeURI', 'escape', 'unescape',
];

/**
 * @typedef {{address: string, status: number, type: string, body: Buffer}} Answer
 * @typedef {Pick<import('../browser/folder.js').Folder, 'has'|'answer'>} Place where a page comes from
 * @typedef {import('../texts/sources.js').Sources} Sources
 */

/**
 * The address of the script that a start tag names, or null.
 * @param {import('./tags.js').Tag} tag
 * @param {string} page
 */
function addressOfScript(tag, page) {
  const source = tag.name === 'script' && kindOfScript(tag) && sourceOf(tag);
  if (!source) return null;
  try {
    return new URL(source.value, page).href.replace(/#.*$/, '');
  } catch {
    return null; // no address
  }
}

/**
 * What a folder or a server of files answers for an address, if that is a file.
 * @param {Place} place
 * @param {string} address
 * @returns {Answer|null} null if it is no whole answer
 */
function answerOf(place, address) {
  const answer = place.answer(address);
  return answer && answer.status === 200 ? { address, ...answer } : null;
}

/**
 * The answers for the scripts that a page names and that come from the same place as the page.
 * @param {Answer} page
 * @param {Place} place
 */
function scriptsOf(page, place) {
  const { text, ofScripts: ofPage } = readText(page.body, page.type, true);
  const addresses = new Set(readTags(text).map((tag) => addressOfScript(tag, page.address)));
  const answers = [...addresses].map((address) => (address && place.has(address) ? answerOf(place, address) : null));
  return answers.flatMap((answer) => (answer ? [{ ...answer, ofPage }] : []));
}

/**
 * A script that cannot be instrumented is tried again when the browser asks for it, and reported then.
 * @param {Sources} sources
 * @param {Answer & {ofPage: string|null}} script
 */
function isInstrumented(sources, { address, type, body, ofPage }) {
  try {
    sources.rewriteScript(address, readText(body, type, false, ofPage).text);
    return true;
  } catch {
    return false;
  }
}

/**
 * Marks the scripts of a page before it comes, while the browser starts. Returns how many.
 * Called by recording/recorder.js.
 * @param {Sources} sources
 * @param {Place} place
 * @param {string} address the page's address
 * @returns {number} how many scripts were instrumented
 */
function markAhead(sources, place, address) {
  const page = answerOf(place, address.replace(/#.*$/, ''));
  if (!page) return 0;
  sources.builtins.set(COMMON_NAMES, false);
  return scriptsOf(page, place).filter((script) => isInstrumented(sources, script)).length;
}

module.exports = { markAhead, COMMON_NAMES };
